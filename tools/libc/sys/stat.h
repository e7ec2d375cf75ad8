#ifndef LIBC_SYS_STAT_H
#define LIBC_SYS_STAT_H

struct timespec {
    long tv_sec, tv_nsec;
};

struct stat {
    unsigned long st_dev, st_ino, st_nlink;
    unsigned int st_mode, st_uid, st_gid, unused_after_gid;
    unsigned long st_rdev;
    long st_size, st_blksize, st_blocks;
    struct timespec st_atim, st_mtim, st_ctim;
    long unused_at_end[3];
};

_Static_assert(sizeof(struct stat) == 144, "as the C library fills it");

#define S_ISDIR(mode) (((mode) & 0170000) == 0040000)
#define S_ISREG(mode) (((mode) & 0170000) == 0100000)

int fchmod(int file, unsigned mode);
int fstat(int file, struct stat *found);
int stat(const char *path, struct stat *found);
int lstat(const char *path, struct stat *found);

#endif
