#include "check.h"

#include <stdlib.h>

#include "words.h"

/* What is printed relies on this, so a library of another edition is noticed here and nowhere later. */
static bool keeps_promise(const struct check *check, struct why *why) {
    if (check->count > CWR_MOST_RECORDS || text_lines(check->file, check->records, CWR_MOST_RECORDS) != check->count)
        return fail(why, "has another number of lines than the %zu records that the library counts", check->count);
    for (size_t i = 0; i < check->count; i++) {
        if (check->verdicts[i] >= VERDICTS)
            return fail(why, "gets from the library for record %zu the verdict %d, which is none", i, check->verdicts[i]);
        if (check->verdicts[i] == CWR_ACCEPTED && check_findings(check, i) != 0)
            return fail(why, "gets from the library for record %zu a finding, and is accepted all the same", i);
    }
    return true;
}

/* ---- with territories */

static uint32_t four_bytes(const uint8_t *bytes) {
    return bytes[0] | (uint32_t)bytes[1] << 8 | (uint32_t)bytes[2] << 16 | (uint32_t)bytes[3] << 24;
}

/* The first work in which some territory is over, by the findings, counted from 0; CWR_NO_TRANSACTION where there is none. */
static size_t first_over(const struct check *check) {
    size_t works = 0;
    for (size_t i = 0; i < check->count; i++) {
        if (!is_header(check->records[i]))
            continue;
        if (check_finds(check, i, OVER_FOUND))
            return works;
        works++;
    }
    return CWR_NO_TRANSACTION;
}

/* What the library names as over first is what its own findings say. */
static bool keeps_first(const struct run *run, const struct check *check, struct why *why) {
    size_t first = first_over(check), named = four_bytes(check->over), territory = four_bytes(check->over + 4);
    if (first == CWR_NO_TRANSACTION)
        return (named == CWR_NO_TRANSACTION && territory == CWR_NO_TRANSACTION) ||
               fail(why, "has no work with finding %d, and the library names one", OVER_FOUND);
    if (named == CWR_NO_TRANSACTION)
        return fail(why, "has finding %d, and the library names no work with it", OVER_FOUND);
    if (named != first)
        return fail(why, "has finding %d first in a work with %zu before it, and the library names one with %zu", OVER_FOUND, first, named);
    return territory < run->territories.count ||
           fail(why, "gets from the library territory %zu as the first that is over, of a table of %zu", territory, run->territories.count);
}

static bool is_zeros(const struct cwr_claim *claim) {
    return (claim->party | claim->code | claim->mark | claim->pr | claim->mr | claim->sr) == 0;
}

static bool keeps_list(const struct run *run, struct why *why) {
    for (size_t i = 0; i < CWR_MOST_RECORDS; i++)
        if (!is_zeros(&run->claims[i]))
            return fail(why, "gets its list of claims back from the library with something left in entry %zu", i);
    return true;
}

static bool keeps_territories(const struct run *run, const struct check *check, struct why *why) {
    return !run_has_territories(run) || (keeps_first(run, check, why) && keeps_list(run, why));
}

/* ---- one file */

static bool ask(const struct run *run, struct check *check, struct why *why) {
    if (!check->records || !check->verdicts || !check->findings)
        return fail(why, "needs more memory than there is");
    check->answer = run_check(run, check->file, check->verdicts, CWR_MOST_RECORDS, check->findings,
                              (size_t)CWR_MOST_RECORDS * CWR_FINDING_BYTES, check->over);
    if (cwr_refusal(check->answer) != 0)
        return true;
    check->count = cwr_place(check->answer);
    return keeps_promise(check, why) && keeps_territories(run, check, why);
}

bool check_run(const struct run *run, struct bytes file, struct check *check, struct why *why) {
    *check = (struct check){.file = file};
    /* Not cleared: that takes longer than the check of a small file, and the library fills as many entries as it says. */
    check->records = malloc(CWR_MOST_RECORDS * sizeof *check->records);
    check->verdicts = malloc(CWR_MOST_RECORDS);
    check->findings = malloc((size_t)CWR_MOST_RECORDS * CWR_FINDING_BYTES);
    bool done = ask(run, check, why);
    if (!done)
        check_free(check);
    return done;
}

void check_free(struct check *check) {
    free(check->records);
    free(check->verdicts);
    free(check->findings);
    *check = (struct check){.count = 0};
}

uint64_t check_findings(const struct check *check, size_t record) {
    return cwr_findings_of(check->findings, record);
}

bool check_finds(const struct check *check, size_t record, uint32_t finding) {
    return (check_findings(check, record) >> finding & 1) != 0;
}

bool is_header(struct bytes record) {
    return text_is(record, "NWR") || text_is(record, "REV");
}

void count_record(struct counts *counts, struct bytes record) {
    counts->groups += text_is(record, "GRH");
    counts->transactions += is_header(record);
}
