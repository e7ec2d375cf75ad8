/* All files of a run together. */
#ifndef NIGHT_H
#define NIGHT_H

#include "judged.h"
#include "sheet.h"

struct night {
    size_t files, by_outcome[OUTCOMES];
    size_t groups, works, records, works_by[VERDICTS], records_by[VERDICTS];
    size_t tally[FINDINGS];
    struct sheet sheet; /* with --sheet */
    enum status status;
};

/* One file more; with --sheet the sheet has had it before. */
void night_add(struct night *night, const struct judged *judged);

#endif
