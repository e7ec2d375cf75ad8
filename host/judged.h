/* One file judged: all that a report says of it, as data. Reports print it and look at nothing else. */
#ifndef JUDGED_H
#define JUDGED_H

#include "check.h"
#include "claims.h"
#include "first.h"
#include "reading.h"
#include "refused.h"
#include "run.h"
#include "shares.h"
#include "status.h"
#include "words.h"

#define NO_RECORD SIZE_MAX
enum { NO_CHAIN = 100 }; /* chains go by two digits */

enum outcome {
    OUTCOME_ACCEPTED,      /* each work, as it is */
    OUTCOME_DEFAULTED,     /* each work, some with defaults */
    OUTCOME_LEFT_OUT,      /* each work, some with records left out */
    OUTCOME_NONE_REJECTED, /* no more is known: with --first */
    OUTCOME_REJECTED,      /* some work is rejected */
    OUTCOME_REFUSED,       /* the file as a whole */
    OUTCOME_FAILED         /* it could not be checked */
};
enum { OUTCOMES = OUTCOME_FAILED + 1 };

/* Of one file; and of files, after how many: "2 with works rejected". */
const char *outcome_words(enum outcome outcome);
const char *outcome_of_files(enum outcome outcome);
enum status outcome_status(enum outcome outcome);

/* Whether a file can have this outcome: in a check, and with --first. */
bool outcome_is_of(enum outcome outcome, bool first);

/* A field that a finding speaks of. */
struct found_field {
    const struct field *field;
    size_t start; /* in the record that it stands in */
    struct bytes text;
};

struct found {
    uint32_t number;
    const struct finding *words; /* null: this program has none for the number */
    size_t record;               /* that it stands on, counted from 0 */
    size_t fields, field_count;  /* in the file's list of fields */
    bool rights[RIGHTS];         /* whose shares do not fit, where it speaks of sums or of a territory */
    size_t culprit;              /* the record with which it first holds, or the first of the chain; NO_RECORD where there is none */
    unsigned chain;              /* the sequence number of the chain that it comes from, or NO_CHAIN */
    size_t territory;            /* the first that is over, by its place in the table, where it speaks of one; or NO_TERRITORY */
    uint64_t totals[RIGHTS];     /* what is collected there */
    size_t parties, party_count; /* who collects there, in the file's list of parties */
};

/* A transaction. Groups count from 1, transactions in their group from 0, as the file itself numbers them. */
struct work {
    size_t group, transaction;
    size_t group_header, header, end; /* its records: from its header on, up to that before `end` */
    uint8_t verdict;                  /* the largest of its records' */
    bool rejects_itself;              /* a finding of its own would be enough */
    bool falls_alone;                 /* it is rejected with its group, and for nothing in itself */
    bool told;
    size_t found, found_count; /* its findings, as far as they are told, in the file's list */
    struct shares shares;      /* of a work that is told */
};

struct group {
    size_t header; /* its GRH */
    size_t works, falling_alone;
    bool rejected;
};

struct judged {
    const char *name; /* as a report shows it */
    enum outcome outcome;
    struct why why;         /* where it could not be checked */
    struct refused refused; /* where it was refused */
    struct first first;     /* with --first, where some work is rejected; then of what follows the content alone is filled */

    size_t group_count, work_count;
    struct group *groups;
    struct work *works;
    size_t works_by[VERDICTS], records_by[VERDICTS];
    size_t tally[FINDINGS]; /* how often each finding holds, of the level that is asked for and above */

    struct found *found;
    struct found_field *fields;
    struct party *parties;
    size_t found_count, field_count, party_count;
    size_t works_told;
    size_t findings_left_out, works_left_out; /* beyond the number that is asked for */

    struct content content; /* which all of this points into */
    struct check check;
};

/* Reads and checks one file, with --first as far as that needs. `name` must live as long. */
void judge(const struct run *run, const char *path, struct judged *judged);

/* One that could not even be read. */
void judge_failed(const char *path, const char *why, struct judged *judged);

void judged_free(struct judged *judged);

/* The column of a finding: where the first of its fields starts, or 1. */
size_t found_column(const struct judged *judged, const struct found *found);

/* The record that a work begins with; and in it the words by which a clerk knows the work. */
struct bytes work_header(const struct judged *judged, const struct work *work);
struct bytes header_number(struct bytes header);
struct bytes header_title(struct bytes header);

/* Of a field, the text as it is to be shown: spaces around a long one are nothing, in a code or a number they count. */
struct bytes field_shown(const struct found_field *field);

/* How many findings a tally counts, and how many records are counted by verdict. */
size_t tally_sum(const size_t tally[FINDINGS]);
size_t records_sum(const size_t by[VERDICTS]);

#endif
