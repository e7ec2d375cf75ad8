/* One file, checked: the library's answer and what it wrote. */
#ifndef CHECK_H
#define CHECK_H

#include <stdbool.h>

#include "cwr.h"
#include "out.h"
#include "run.h"
#include "text.h"

struct check {
    struct bytes file;
    uint64_t answer;
    /* Where passed, an entry a record. */
    size_t count;
    struct bytes *records;
    uint8_t *verdicts;
    uint8_t *findings;
    uint8_t over[CWR_OVER_BYTES]; /* with territories */
};

/* False where there is no memory or the library does not keep to its interface; then there is nothing to free. */
bool check_run(const struct run *run, struct bytes file, struct check *check, struct why *why);

void check_free(struct check *check);

/* The set of findings of a record; and whether a finding is in it. */
uint64_t check_findings(const struct check *check, size_t record);
bool check_finds(const struct check *check, size_t record, uint32_t finding);

/* Groups and transactions of a file that passed. */
struct counts {
    size_t groups, transactions;
};

/* One record more. */
void count_record(struct counts *counts, struct bytes record);

/* Whether a transaction begins with it. */
bool is_header(struct bytes record);

#endif
