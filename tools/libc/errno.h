#ifndef LIBC_ERRNO_H
#define LIBC_ERRNO_H
int *__errno_location(void);
#define errno (*__errno_location())
#define ENOENT 2
#define EINTR 4
#define EIO 5 /* used by the double of host/test */
#define EACCES 13
#define EEXIST 17
#define EINVAL 22
#endif
