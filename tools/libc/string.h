#ifndef LIBC_STRING_H
#define LIBC_STRING_H
#include <stddef.h>
void *memchr(const void *bytes, int byte, size_t length);
int memcmp(const void *a, const void *b, size_t length);
void *memmove(void *to, const void *from, size_t length);
void *memset(void *bytes, int byte, size_t length);
char *strchr(const char *words, int letter);
char *strrchr(const char *words, int letter);
int strcmp(const char *a, const char *b);
int strncmp(const char *a, const char *b, size_t length);
size_t strcspn(const char *words, const char *letters);
size_t strlen(const char *words);
char *strerror(int error);
#endif
