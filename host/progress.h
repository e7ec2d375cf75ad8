/* How far a long run is, on standard error where that is a terminal. */
#ifndef PROGRESS_H
#define PROGRESS_H

#include <stdbool.h>
#include <stddef.h>

struct progress {
    bool on, shown;
    bool beside_output; /* standard output goes to a terminal too */
    long last; /* when something was shown, or the run began; in seconds */
    size_t files;
};

struct progress progress_begin(size_t files);

/* Before a file is checked, so many being done. */
void progress_show(struct progress *progress, size_t done);

/* Before something is printed, and at the end. */
void progress_make_way(struct progress *progress);
void progress_end(struct progress *progress);

#endif
