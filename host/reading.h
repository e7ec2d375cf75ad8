/* Files read whole. */
#ifndef READING_H
#define READING_H

#include <stdbool.h>

#include "out.h"
#include "text.h"

/* Which file it is, whatever name it goes by. */
struct identity {
    uint64_t device, inode;
};

struct content {
    uint8_t *bytes; /* never null, also for an empty file */
    size_t length;
    struct identity identity;
};

/* Reads a file, standard input for "-", and of one longer than `most` only `most` + 1 bytes: the length then says that it is too long.
 * False where it cannot be read or changes meanwhile; then there is nothing to free. */
bool file_read(const char *path, size_t most, struct content *content, struct why *why);

void file_free(struct content *content);

/* How a report names it. */
const char *file_title(const char *path);

#endif
