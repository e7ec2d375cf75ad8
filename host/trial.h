/* A small file made of records of one that passed, numbered and checked alone. So it is the library that tells which part of a work a
 * finding comes from, and no rule is written a second time. */
#ifndef TRIAL_H
#define TRIAL_H

#include <stdbool.h>

#include "check.h"
#include "run.h"

/* Where the records of a trial stand in it. */
enum { TRIAL_HEADER = 2, TRIAL_DETAIL = 3 };

struct trial {
    const struct run *run;
    const struct check *check;
    uint8_t *bytes, *numbered, *verdicts, *findings;
    size_t length, records;
};

/* No memory is taken before it is needed. */
struct trial trial_of(const struct run *run, const struct check *check);

void trial_free(struct trial *trial);

/* Begins a file with the HDR of the one that passed and this GRH. False where none can be made. */
bool trial_begin(struct trial *trial, size_t group_header);

/* Adds a copy of a record; where it stands. No record may be added twice to one trial. */
uint8_t *trial_add(struct trial *trial, size_t record);

/* Ends the file, and asks: whether the finding holds of that record of the trial. */
bool trial_finds(struct trial *trial, size_t record, uint32_t finding);

#endif
