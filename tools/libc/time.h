#ifndef LIBC_TIME_H
#define LIBC_TIME_H
typedef long time_t;
time_t time(time_t *to);
#endif
