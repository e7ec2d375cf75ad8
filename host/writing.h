/* Files written whole or not at all. */
#ifndef WRITING_H
#define WRITING_H

#include <stdbool.h>

#include "reading.h"
#include "text.h"

/* Whether a file may be written under this name: it is not `input` by another name, and free, or an ordinary file that may be replaced.
 * `input` is null where nothing is read that could be written over. False with words on standard error. */
bool file_may_write(const char *path, const struct identity *input, bool replace);

/* Whether two names are of one file, by links too. */
bool file_is_same(const char *path, const char *other);

/* Writes the file beside its place and then moves it there, so that under this name stands the whole of it or what stood there before. One
 * that is replaced hands its mode on. A signal to stop is heeded after the part was removed. False with words on standard error. */
bool file_write(const char *path, struct bytes text, bool replace);

#endif
