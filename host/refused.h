/* Why a file is refused, in words that point: asked of the library wherever a rule is behind it. */
#ifndef REFUSED_H
#define REFUSED_H

#include <stdbool.h>

#include "text.h"

struct refused {
    uint32_t number, place;
    const char *sentence; /* what the refusal means */
    char *detail;         /* what is wrong here, as far as it can be told; null where nothing more can */
    bool has_line;        /* its place is a record, that is a line of the file */
    bool ends;            /* which the file ends before */
    struct bytes text;    /* the line */
    size_t column;        /* in it; 1 where none is known */
};

/* Of a file and the answer to it, by the check or by numbering; whether a territory table was lent, without which 13 and 14 are no
 * refusals. */
void refused_explain(struct refused *refused, struct bytes file, uint64_t answer, bool with_territories);

/* What is wrong here, or what the refusal means where no more can be told. */
const char *refused_reason(const struct refused *refused);

void refused_free(struct refused *refused);

#endif
