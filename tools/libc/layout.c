/* Prints what the headers that it is compiled with say of the machine. */
#include <dirent.h>
#include <errno.h>
#include <fcntl.h>
#include <signal.h>
#include <stddef.h>
#include <stdint.h>
#include <stdio.h>
#include <sys/stat.h>
#include <sys/uio.h>
#include <time.h>
#include <unistd.h>

#define SIZE(what) show("size of " #what, sizeof(what))
#define PLACE(type, field) show("place of " #field, __builtin_offsetof(type, field))
#define VALUE(what) show(#what, (uint64_t)(what))

static void show(const char *name, uint64_t value) {
    char line[80];
    snprintf(line, sizeof line, "%s: %llu\n", name, (unsigned long long)value);
    fputs(line, stdout);
}

int main(void) {
    SIZE(struct stat), SIZE(struct timespec), SIZE(size_t), SIZE(ssize_t), SIZE(struct iovec);
    SIZE(((struct stat *)0)->st_dev), SIZE(((struct stat *)0)->st_ino), SIZE(((struct stat *)0)->st_mode);
    SIZE(((struct stat *)0)->st_size), SIZE(((struct stat *)0)->st_mtim);
    PLACE(struct stat, st_dev), PLACE(struct stat, st_ino), PLACE(struct stat, st_mode), PLACE(struct stat, st_size);
    PLACE(struct stat, st_mtim), PLACE(struct timespec, tv_sec), PLACE(struct timespec, tv_nsec);
    PLACE(struct iovec, iov_base), PLACE(struct iovec, iov_len);
    SIZE(struct dirent), SIZE(((struct dirent *)0)->d_name), PLACE(struct dirent, d_name);
    SIZE(sig_atomic_t), SIZE(time_t), VALUE(SIGHUP), VALUE(SIGINT), VALUE(SIGTERM), VALUE(SIG_DFL), VALUE(SIG_IGN);
    VALUE(O_RDONLY), VALUE(O_WRONLY), VALUE(O_CREAT), VALUE(O_EXCL), VALUE(O_APPEND);
    VALUE(ENOENT), VALUE(EINTR), VALUE(EIO), VALUE(EACCES), VALUE(EEXIST), VALUE(EINVAL);
    VALUE(S_ISREG(0100644)), VALUE(S_ISREG(0120777)), VALUE(S_ISDIR(0040755)), VALUE(S_ISDIR(0060600));
    return 0;
}
