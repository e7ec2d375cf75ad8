#ifndef LIBC_UNISTD_H
#define LIBC_UNISTD_H
#include <stddef.h>
typedef long ssize_t;
ssize_t read(int from, void *bytes, size_t length);
ssize_t write(int to, const void *bytes, size_t length);
int close(int file);
int fsync(int file);
int getpid(void);
int isatty(int file);
int link(const char *from, const char *to);
int unlink(const char *path);
unsigned sleep(unsigned seconds); /* used by the double of host/test */
#endif
