/* Bytes of the file that is reported on: parts of it, never copies. */
#ifndef TEXT_H
#define TEXT_H

#include <stdbool.h>
#include <stddef.h>
#include <stdint.h>

struct bytes {
    const uint8_t *at;
    size_t length;
};

/* Whether a record, or a field, is or begins with these three letters. */
bool text_is(struct bytes text, const char *three);

/* Positions count from 1, as in the specification. What of it lies beyond the record is left out. */
struct bytes text_field(struct bytes record, size_t start, size_t size);

/* Without the spaces around it. */
struct bytes text_trimmed(struct bytes text);

/* Takes the next line off the file: its text without CR LF, or what is left of the file. False where nothing is left. */
bool text_next(struct bytes *file, struct bytes *line);

/* The line with this number, from 0. False where there is none. */
bool text_line(struct bytes file, size_t number, struct bytes *line);

/* The lines of the file, at most `most` of them, written to `lines`; how many there are. */
size_t text_lines(struct bytes file, struct bytes *lines, size_t most);

#endif
