/* The numbered file. */
#ifndef NUMBER_H
#define NUMBER_H

#include "out.h"
#include "status.h"

/* Writes the file `from` with its numbers put in to `to`, which it replaces only where asked to. */
enum status number(struct out *out, const char *from, const char *to, bool replace);

#endif
