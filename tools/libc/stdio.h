#ifndef LIBC_STDIO_H
#define LIBC_STDIO_H
#include <stdarg.h>
#include <stddef.h>
typedef struct _IO_FILE FILE;
extern FILE *stdin, *stdout, *stderr;
int fclose(FILE *file);
int fflush(FILE *file);
int fputs(const char *restrict words, FILE *restrict file);
FILE *open_memstream(char **words, size_t *length);
size_t fread(void *restrict to, size_t size, size_t count, FILE *restrict file); /* used by host/example */
__attribute__((format(printf, 1, 2))) int printf(const char *restrict format, ...); /* used by host/example */
int rename(const char *from, const char *to);
__attribute__((format(printf, 3, 4))) int snprintf(char *restrict to, size_t room, const char *restrict format, ...);
__attribute__((format(printf, 2, 3))) int fprintf(FILE *restrict file, const char *restrict format, ...);
__attribute__((format(printf, 2, 0))) int vfprintf(FILE *restrict file, const char *restrict format, va_list words);
__attribute__((format(printf, 3, 0))) int vsnprintf(char *restrict to, size_t room, const char *restrict format, va_list words);
#endif
