#ifndef LIBC_STDLIB_H
#define LIBC_STDLIB_H
#include <stddef.h>
void *malloc(size_t length);
void *calloc(size_t count, size_t length);
void *realloc(void *bytes, size_t length);
void free(void *bytes);
void qsort(void *list, size_t count, size_t size, int (*compare)(const void *a, const void *b));
/* used by the double of host/test */
char *getenv(const char *name);
unsigned long long strtoull(const char *restrict words, char **restrict end, int base);
#endif
