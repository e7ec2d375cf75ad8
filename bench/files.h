/* The files that are measured: made in memory, always the same ones, each with
 * the answer, the verdicts and the findings that are right for it. */
#ifndef FILES_H
#define FILES_H

#include "../include/cwr.h"
#include "system.h"

/* The lent tables, in the order of cwr_check_within. */
enum { LANGUAGES, SOCIETIES, CATEGORIES, TABLES };

struct codes {
    const uint8_t *bytes;
    size_t length;
};

/* The numbers of a sheet, where those of a right begin, and where those by finding and by verdict. */
enum { SHEET_NUMBERS = CWR_SHEET_BYTES / 8, BY_RIGHT = 2, BY_FINDING = 14, BY_VERDICT = 78 };
enum { MISSING, SHORTFALL, EXCESS, DIFFERENCES, OF_A_RIGHT, RIGHTS = 3 };

/* Shares, in hundredths of a percent. */
enum { HALF = 5000, WHOLE = 10000 };

/* What a record's numbers are written from. */
enum count { GROUPS, GROUP_TRANSACTIONS, GROUP_RECORDS, TRANSACTIONS, RECORDS, TRANSACTION, DETAIL, COUNTS };

struct file {
    const char *name;
    uint8_t *bytes;
    size_t length;
    struct codes tables[TABLES], territories;

    /* What is right for it: the answers, how far numbering leaves it as it is, and the numbers of its sheet. */
    uint64_t records, structure, search, number;
    size_t right_length;
    uint8_t *verdicts, *findings;
    uint64_t sheet[SHEET_NUMBERS];

    /* While it is made: the random number, the codes that its records ask for,
     * the counts, where the transaction began, and what the fields of the next
     * record are made of. */
    uint64_t seed;
    struct codes asked[TABLES];
    uint64_t counts[COUNTS];
    size_t transaction_at, transaction_record;
    const char *transaction_type, *role, *relation, *version;
    const uint8_t *territory; /* that a claim names; null: one of a few */
    bool excludes;
    uint64_t chain, publisher, writer, shares[RIGHTS];
};

struct maker {
    const char *name;
    /* share: it is to be one share-th as long */
    void (*make)(struct file *f, uint64_t share);
};

extern const struct maker makers[];
extern const size_t makers_count;

/* The file that a maker makes; it is lent until forget. */
void make(struct file *f, const struct maker *maker, uint64_t share);
void forget(struct file *f);

/* A copy with its numbers wiped out: what numbering is given. */
uint8_t *unnumbered(const struct file *f);

/* Nothing can be done: status 2. */
_Noreturn void stop(const char *name, const char *words);

#endif
