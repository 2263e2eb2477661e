/* The Rattle kit's clang comes without headers: what gateway.h and the host need of stddef.h, for x86-64 Linux. */
#ifndef KIT_STDDEF_H
#define KIT_STDDEF_H
typedef __SIZE_TYPE__ size_t;
#define NULL ((void *)0)
#endif
