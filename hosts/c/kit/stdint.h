/* The Rattle kit's clang comes without headers: what gateway.h needs of stdint.h, for x86-64 Linux. */
#ifndef KIT_STDINT_H
#define KIT_STDINT_H
typedef __UINT8_TYPE__ uint8_t;
typedef __UINT16_TYPE__ uint16_t;
typedef __UINT32_TYPE__ uint32_t;
typedef __UINT64_TYPE__ uint64_t;
typedef __INT64_TYPE__ int64_t;
#define UINT16_MAX 65535
#endif
