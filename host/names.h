/* The files that are to be checked: those named, and those in the folders named. */
#ifndef NAMES_H
#define NAMES_H

#include <stdbool.h>
#include <stddef.h>

#include "options.h"

struct name {
    char *path;
    const char *why; /* where it is already known that it cannot be checked; else null */
};

struct names {
    struct name *list;
    size_t count, room;
};

/* In the order in which they were named, those of a folder in the order of their names. A folder that cannot be looked into, or has nothing
 * to check, stands in the list itself. False, with words on standard error, where there is no memory; then there is nothing to free. */
bool names_gather(struct names *names, const struct options *options);

void names_free(struct names *names);

#endif
