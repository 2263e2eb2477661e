/* The Rattle kit's clang comes without headers: what the host needs of stdio.h. */
#ifndef KIT_STDIO_H
#define KIT_STDIO_H
#include <stddef.h>
typedef struct _IO_FILE FILE;
extern FILE *stdin;
extern FILE *stdout;
extern FILE *stderr;
int fprintf(FILE *to, const char *format, ...);
int fputs(const char *text, FILE *to);
size_t fread(void *to, size_t size, size_t count, FILE *from);
size_t fwrite(const void *from, size_t size, size_t count, FILE *to);
int printf(const char *format, ...);
int putchar(int c);
int puts(const char *line);
#endif
