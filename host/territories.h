/* The territory table: a file with one territory a line, its code and after it the code of the group that holds it. */
#ifndef TERRITORIES_H
#define TERRITORIES_H

#include <stdbool.h>

#include "cwr.h"
#include "text.h"

enum { TERRITORY_CODE = 4 }; /* bytes of a code */
#define NO_TERRITORY SIZE_MAX

/* The entries one after the other, as the library takes them. Territories go by their place among the lines that name one, from 0. */
struct territories {
    uint8_t *entries; /* null where no table is asked for, and only there */
    size_t count;
};

/* An empty table is warned of. False, with words on standard error that name the line, where the file cannot be read or is no table; then
 * there is nothing to free. */
bool territories_read(const char *path, struct territories *territories);

void territories_free(struct territories *territories);

/* Of a territory its code, and the place of the group that holds it; NO_TERRITORY where none does. */
struct bytes territory_code(const struct territories *territories, size_t place);
size_t territory_group(const struct territories *territories, size_t place);

/* The place of a code; NO_TERRITORY where the table lacks it. */
size_t territory_of(const struct territories *territories, struct bytes code);

/* An entry, written as the library takes it. */
void territory_put(uint8_t entry[CWR_TERRITORY_BYTES], const uint8_t code[TERRITORY_CODE], size_t group);

#endif
