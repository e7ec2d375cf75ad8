/* The client's catalogue sheet: what the library counts over all files of a run, and how many it had no room for. */
#ifndef SHEET_H
#define SHEET_H

#include "cwr.h"
#include "judged.h"

struct sheet {
    uint8_t bytes[CWR_SHEET_BYTES]; /* the library's */
    size_t left_out;                /* files that came when it was full */
};

/* One file more; one that could not be checked is not taken. False where the library says of it otherwise than in the check, and so does
 * not keep to its interface. */
bool sheet_take(struct sheet *sheet, const struct run *run, const struct judged *judged);

/* The records with each finding and with each verdict, as reports have them of a night. */
void sheet_tally(const struct sheet *sheet, size_t tally[FINDINGS]);
void sheet_records_by(const struct sheet *sheet, size_t by[VERDICTS]);

#endif
