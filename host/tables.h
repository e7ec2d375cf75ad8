/* The three tables of codes: a folder with languages.txt, societies.txt and categories.txt, one code a line. */
#ifndef TABLES_H
#define TABLES_H

#include <stdbool.h>

#include "text.h"

enum { TABLES = 3 };

/* The codes one after the other, as the library takes them; in its order: languages, societies, categories. */
struct table {
    uint8_t *codes; /* never null, also for an empty table */
    size_t length;
};

struct tables {
    struct table of[TABLES];
};

/* The name of a table's file, by its place in the library's order. */
const char *table_name(size_t place);

/* "languages"; and how many codes a table has. */
const char *table_plural(size_t place);
size_t table_count(const struct tables *tables, size_t place);

/* Reads the three files. A table without a code is warned of: every code of the file will be unknown. False, with words on standard error,
 * where a file cannot be read or a code has the wrong length; then there is nothing to free. */
bool tables_read(const char *folder, struct tables *tables);

void tables_free(struct tables *tables);

#endif
