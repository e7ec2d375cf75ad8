/* The stack of a call: what is below it on a thread's stack is filled with one byte, and what the call wrote there is counted. */
#include "stack.h"

#include "files.h"

/* NEAR: left alone below the frame from which the stack is filled, for that filling itself. */
enum { ROOM = 1 << 20, NEAR = 512, FILLED = 0x55 };

struct watched {
    void *(*call)(void *);
    void *lent;
    uint8_t *stack;
    size_t taken;
};

/* A stack grows down, so what is left of it stands at its front. */
static void *watch(void *lent) {
    struct watched *w = lent;
    uint8_t here;
    size_t below = (size_t)(&here - w->stack), left = 0;
    memset(w->stack, FILLED, below - NEAR);
    w->call(w->lent);
    while (left < below - NEAR && w->stack[left] == FILLED)
        left++;
    w->taken = below - left;
    return NULL;
}

size_t stack_of(void *(*call)(void *), void *lent) {
    struct watched w = {call, lent, malloc(ROOM), 0};
    struct thread_kind kind;
    unsigned long thread;
    if (!w.stack)
        stop("stack", "no memory");
    if (pthread_attr_init(&kind) != 0 || pthread_attr_setstack(&kind, w.stack, ROOM) != 0 ||
        pthread_create(&thread, &kind, watch, &w) != 0 || pthread_join(thread, NULL) != 0)
        stop("stack", "no thread");
    free(w.stack);
    return w.taken;
}
