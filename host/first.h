/* The first work of a file to look at, where no more is asked for: the first with a finding of its own that rejects it. */
#ifndef FIRST_H
#define FIRST_H

#include <stdbool.h>

#include "out.h"
#include "text.h"

struct first {
    size_t works_before;       /* in the whole file, which is the number that the library gives it */
    size_t group, transaction; /* groups count from 1, transactions in their group from 0, as the file itself numbers them */
    size_t record;             /* its header, counted from 0 */
    struct bytes header;
};

/* Finds the header with so many others before it. False where the file has none, so that the library does not keep to its interface. */
bool first_find(struct bytes file, size_t works_before, struct first *first, struct why *why);

#endif
