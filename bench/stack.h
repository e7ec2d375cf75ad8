#ifndef STACK_H
#define STACK_H

#include "system.h"

/* How many bytes of stack a call takes. */
size_t stack_of(void *(*call)(void *), void *lent);

#endif
