/* The numbers of the library in words: its findings, verdicts and refusals, each in one table. */
#ifndef WORDS_H
#define WORDS_H

#include <stdbool.h>
#include <stddef.h>
#include <stdint.h>

#include "shares.h"

enum { MOST_FIELDS = 5, FINDINGS = 64 /* that a set has room for */ };

/* With territories: a work that has too much somewhere, and a claim that is left out. */
enum { OVER_FOUND = 47, CLAIM_FOUND = 48 };

/* A field of a record, for showing what stands in it. */
struct field {
    const char *name; /* null: no more fields */
    size_t start, size;
    const char *right;   /* what may stand there; null where it is shown for the others' sake */
    const char *neutral; /* of fields of which one or another is wrong: what never is. Null: it is always shown */
    bool of_group;       /* it stands in the GRH */
    bool of_claim;       /* it starts earlier in SWT and OWT, as claim_start says */
    bool is_territory;   /* its neutral is one where the territory table has just that */
};

/* Where it starts in this record. */
size_t field_start(const struct field *field, struct bytes record);

/* What a finding on a header comes from, beside its fields. */
enum pointer { POINTS_NOWHERE, POINTS_TO_RECORD, POINTS_TO_CHAIN };

struct finding {
    size_t level;     /* 1 FR, 2 RR, 3 TR, 4 GR: the verdict that it brings */
    const char *edit; /* of 001, as docs/FINDINGS.md names it */
    const char *put;  /* what a society puts there; null where it puts nothing */
    const char *sentence;
    struct field fields[MOST_FIELDS];
    enum pointer points;
    const struct range *ranges; /* where it speaks of the shares added up: what each right may come to */
};

/* Null for a number that is none. */
const struct finding *finding_words(uint32_t number);

/* What it says; of null, that this program has no words for it. */
const char *finding_sentence(const struct finding *finding);

/* FR, RR, TR or GR; and the level of that name, 0 where it is none. */
const char *level_name(size_t level);
size_t level_named(const char *name);

/* What a refusal's place speaks of. */
enum place { PLACE_NOTHING, PLACE_TABLE, PLACE_LINE };

struct refusal {
    enum place place;
    const char *sentence;
};

/* Those that are no fault of a file. */
enum { TOLERANCE_REFUSED = 1, TABLE_REFUSED = 2, SHEET_REFUSED = 12, TERRITORIES_REFUSED = 13, CLAIMS_REFUSED = 14 };

/* Null for a number that is none. */
const struct refusal *refusal_words(uint32_t number);

/* Of a record, 0 to 4; and of a whole work whose largest verdict it is. */
enum { VERDICTS = 5 };
const char *verdict_of_record(size_t verdict);
const char *verdict_of_work(size_t verdict);

#endif
