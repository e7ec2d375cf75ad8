#include "progress.h"

#include <stdio.h>
#include <time.h>
#include <unistd.h>

enum { STANDARD_OUTPUT = 1, STANDARD_ERROR = 2 };

static long now(void) {
    return (long)time(NULL);
}

struct progress progress_begin(size_t files) {
    return (struct progress){files > 1 && isatty(STANDARD_ERROR) == 1, false, isatty(STANDARD_OUTPUT) == 1, now(), files};
}

/* At most once a second, and so never in a short run. */
void progress_show(struct progress *progress, size_t done) {
    if (!progress->on || now() == progress->last)
        return;
    fprintf(stderr, "\rcwrcheck: %zu of %zu files checked", done, progress->files);
    fflush(stderr);
    progress->last = now();
    progress->shown = true;
}

void progress_end(struct progress *progress) {
    if (!progress->shown)
        return;
    fputs("\r\033[K", stderr);
    fflush(stderr);
    progress->shown = false;
}

void progress_make_way(struct progress *progress) {
    if (progress->beside_output)
        progress_end(progress);
}
