/* The Rattle kit's clang comes without headers: what the host needs of stdlib.h. */
#ifndef KIT_STDLIB_H
#define KIT_STDLIB_H
#include <stddef.h>
void exit(int status);
void *realloc(void *from, size_t size);
double strtod(const char *text, char **end);
unsigned long strtoul(const char *text, char **end, int base);
#endif
