#include "run.h"

#include <stdlib.h>

#include "out.h"
#include "words.h"

bool run_has_territories(const struct run *run) {
    return run->claims != NULL;
}

/* No work has more claims than its file has records, so the list is lent no longer than the verdicts are: all of it is cleared each time,
 * which would take longest of all where a finding is asked about on a few records. */
static uint64_t check_claims(const struct run *run, struct bytes file, uint8_t *verdicts, size_t verdicts_length, uint8_t *findings,
                             size_t findings_length, uint8_t over[CWR_OVER_BYTES]) {
    const struct table *of = run->tables.of;
    size_t claims = verdicts_length < CWR_MOST_RECORDS ? verdicts_length : CWR_MOST_RECORDS;
    return cwr_check_claims(run->tolerance, file.at, file.length, of[0].codes, of[0].length, of[1].codes, of[1].length, of[2].codes,
                            of[2].length, run->territories.entries, run->territories.count * CWR_TERRITORY_BYTES, run->claims, claims,
                            verdicts, verdicts_length, findings, findings_length, over, CWR_OVER_BYTES);
}

uint64_t run_check(const struct run *run, struct bytes file, uint8_t *verdicts, size_t verdicts_length, uint8_t *findings,
                   size_t findings_length, uint8_t over[CWR_OVER_BYTES]) {
    const struct table *of = run->tables.of;
    if (run_has_territories(run))
        return check_claims(run, file, verdicts, verdicts_length, findings, findings_length, over);
    return cwr_check_within(run->tolerance, file.at, file.length, of[0].codes, of[0].length, of[1].codes, of[1].length, of[2].codes,
                            of[2].length, verdicts, verdicts_length, findings, findings_length);
}

uint64_t run_first(const struct run *run, struct bytes file) {
    const struct table *of = run->tables.of;
    return cwr_first_rejected(run->tolerance, file.at, file.length, of[0].codes, of[0].length, of[1].codes, of[1].length, of[2].codes,
                              of[2].length);
}

uint64_t run_sheet(const struct run *run, struct bytes file, uint8_t *sheet, size_t sheet_length) {
    const struct table *of = run->tables.of;
    return cwr_sheet_add(sheet, sheet_length, file.at, file.length, of[0].codes, of[0].length, of[1].codes, of[1].length, of[2].codes,
                         of[2].length);
}

/* The library looks at the tolerance and the tables before any file, so the empty one shows what it says of them. */
static bool is_taken(const struct run *run) {
    uint8_t nothing[CWR_FINDING_BYTES] = {0}, over[CWR_OVER_BYTES];
    uint64_t answer = run_check(run, (struct bytes){nothing, 0}, nothing, 0, nothing, 0, over);
    if (cwr_refusal(answer) == TOLERANCE_REFUSED)
        return complain("%s", refusal_words(TOLERANCE_REFUSED)->sentence);
    if (cwr_refusal(answer) == TABLE_REFUSED)
        return complain("%s: %s", table_name(cwr_place(answer)), refusal_words(TABLE_REFUSED)->sentence);
    return true;
}

static bool read_territories(struct run *run) {
    if (!run->options->territories)
        return true;
    if (!territories_read(run->options->territories, &run->territories))
        return false;
    run->claims = calloc(CWR_MOST_RECORDS, sizeof *run->claims);
    return run->claims || complain("not enough memory for the claims of a work");
}

/* Where no tolerance is asked for, it is the largest: the library's short form has none at all. */
bool run_begin(struct run *run, const struct options *options) {
    *run = (struct run){.options = options, .tolerance = options->has_tolerance ? options->tolerance : CWR_LARGEST_TOLERANCE};
    if (!tables_read(options->tables, &run->tables))
        return false;
    if (read_territories(run) && is_taken(run))
        return true;
    run_end(run);
    return false;
}

void run_end(struct run *run) {
    tables_free(&run->tables);
    territories_free(&run->territories);
    free(run->claims);
}
