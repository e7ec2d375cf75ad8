/* used by the double of host/test */
#ifndef LIBC_SYS_UIO_H
#define LIBC_SYS_UIO_H
#include <unistd.h>
struct iovec {
    void *iov_base;
    size_t iov_len;
};
ssize_t readv(int from, const struct iovec *parts, int count);
#endif
