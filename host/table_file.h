/* The file of a table: read whole, and taken line by line, without what means nothing in it. */
#ifndef TABLE_FILE_H
#define TABLE_FILE_H

#include <stdbool.h>

#include "out.h"
#include "reading.h"
#include "text.h"

/* False, with words on standard error, where it cannot be read or is too long for a table; then there is nothing to free. */
bool table_file_read(const char *path, struct content *content);

/* Where a walk over its lines stands. */
struct table_lines {
    struct bytes left;
    size_t number; /* of the line that was taken last, from 1 */
};

struct table_lines table_lines_of(const struct content *content);

/* Takes the next line that is neither blank nor a remark, without its LF or CR LF; false where none is left. */
bool table_lines_next(struct table_lines *lines, struct bytes *line);

/* A message on standard error about a line, begun: the caller says what is wrong there, and ends it. */
struct out table_line_wrong(const char *path, size_t number);

/* A code of another length than a table of its kind has. Always false, as `complain`. */
bool table_code_wrong(const char *path, size_t number, struct bytes code, const char *kind, size_t width);

/* A table without a code, which may be one: a warning. */
void table_warn_empty(const char *path, const char *kind);

#endif
