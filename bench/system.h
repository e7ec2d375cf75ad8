/* What the benchmark uses of the C library of 64-bit Linux on x86-64, beside
 * what tools/libc declares. */
#ifndef SYSTEM_H
#define SYSTEM_H

#include <stdbool.h>
#include <stddef.h>
#include <stdint.h>

_Static_assert(sizeof(size_t) == 8 && sizeof(long) == 8, "64 bits");

struct timespec {
    long seconds;
    long nanoseconds;
};

/* pthread_attr_t: 7 words on x86-64, and 8 on Arm, where the program is compiled too to be measured. */
struct thread_kind {
    uint64_t words[8];
};

typedef struct _IO_FILE FILE;

void *malloc(size_t length);
void free(void *bytes);
void *memcpy(void *restrict to, const void *restrict from, size_t length);
void *memset(void *bytes, int byte, size_t length);
int memcmp(const void *a, const void *b, size_t length);
int strcmp(const char *a, const char *b);
size_t strlen(const char *words);
int printf(const char *restrict format, ...);
FILE *fopen(const char *restrict path, const char *restrict mode);
size_t fwrite(const void *restrict bytes, size_t size, size_t count, FILE *restrict file);
int fclose(FILE *file);
int clock_gettime(int clock, struct timespec *time);
int pthread_attr_init(struct thread_kind *kind);
int pthread_attr_setstack(struct thread_kind *kind, void *stack, size_t length);
int pthread_create(unsigned long *thread, const struct thread_kind *kind, void *(*call)(void *), void *lent);
int pthread_join(unsigned long thread, void **answer);
_Noreturn void exit(int status);

#endif
