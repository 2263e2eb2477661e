/* The Rattle kit's clang comes without headers: what the host needs of string.h. */
#ifndef KIT_STRING_H
#define KIT_STRING_H
#include <stddef.h>
int memcmp(const void *one, const void *other, size_t count);
void *memcpy(void *to, const void *from, size_t count);
int strcmp(const char *one, const char *other);
#endif
