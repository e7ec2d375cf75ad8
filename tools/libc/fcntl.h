#ifndef LIBC_FCNTL_H
#define LIBC_FCNTL_H
#define O_RDONLY 0
#define O_WRONLY 1
#define O_CREAT 0100
#define O_EXCL 0200
#define O_APPEND 02000 /* used by the double of host/test */
int open(const char *path, int flags, ...);
#endif
