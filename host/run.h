/* What all files of one run are checked with. */
#ifndef RUN_H
#define RUN_H

#include "cwr.h"
#include "options.h"
#include "tables.h"
#include "territories.h"

struct run {
    const struct options *options;
    struct tables tables;
    struct territories territories; /* with --territories */
    struct cwr_claim *claims;       /* lent to the library to work in, CWR_MOST_RECORDS of them; null without territories */
    uint64_t tolerance;             /* in force */
};

/* Reads the tables, and asks the library whether it takes them and the tolerance. False, with words on standard error, where it does not;
 * then there is nothing to free. */
bool run_begin(struct run *run, const struct options *options);

void run_end(struct run *run);

/* Whether collection shares by territory are looked at. */
bool run_has_territories(const struct run *run);

/* The library asked: the answer to one file, with verdicts and findings where it passes, and with territories what is over first. The
 * verdicts have room for all of its records, or for none. */
uint64_t run_check(const struct run *run, struct bytes file, uint8_t *verdicts, size_t verdicts_length, uint8_t *findings,
                   size_t findings_length, uint8_t over[CWR_OVER_BYTES]);

/* The library asked for the first work to look at alone, which it finds without judging the rest. */
uint64_t run_first(const struct run *run, struct bytes file);

/* The library asked to add the file to a sheet, for which it checks it by itself, with the tolerance of sheets. */
uint64_t run_sheet(const struct run *run, struct bytes file, uint8_t *sheet, size_t sheet_length);

#endif
