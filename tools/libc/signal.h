#ifndef LIBC_SIGNAL_H
#define LIBC_SIGNAL_H
typedef int sig_atomic_t;
#define SIGHUP 1
#define SIGINT 2
#define SIGTERM 15
#define SIG_DFL ((void (*)(int))0)
#define SIG_IGN ((void (*)(int))1)
void (*signal(int number, void (*act)(int)))(int);
int raise(int number);
#endif
