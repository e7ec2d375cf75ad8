/* What the parties of a work collect in a territory, by its claims: for showing beside finding 47. It judges nothing. */
#ifndef CLAIMS_H
#define CLAIMS_H

#include "check.h"
#include "shares.h"
#include "territories.h"

/* One SPU, OPU, SWR or OWR, with what it collects in some territory, in hundredths of a percent. */
struct party {
    size_t record; /* counted from 0 */
    uint64_t shares[RIGHTS];
};

/* An SPT, OPT, SWT or OWT that counts: one after a party, and without finding 48. */
struct claim {
    size_t party;            /* the record that it belongs to */
    size_t territory;        /* that it names, by its place in the table */
    uint64_t shares[RIGHTS]; /* nothing where it excludes */
};

struct claims {
    const struct territories *territories;
    struct claim *list;
    size_t count;
};

/* Of the records of a work, from its header up to that before `end`. False where there is no memory; then there is nothing to free. */
bool claims_read(struct claims *claims, const struct territories *territories, const struct check *check, size_t header, size_t end);

void claims_free(struct claims *claims);

/* The first territory that holds no other and in which of some right more than `most` is collected; NO_TERRITORY where there is none. */
size_t claims_first_over(const struct claims *claims, uint64_t most);

/* What all parties collect in a territory. */
void claims_total(const struct claims *claims, size_t territory, uint64_t totals[RIGHTS]);

/* A walk over the parties with claims, for what each of them collects in one territory. */
struct parties {
    const struct claims *claims;
    size_t at;
    bool speaks[CWR_MOST_TERRITORIES]; /* of each territory of the table, whether a claim on it speaks of this one */
};

struct parties parties_in(const struct claims *claims, size_t territory);

/* Takes the next party; false where none is left. */
bool parties_next(struct parties *parties, struct party *party);

/* Whether it collects anything there. */
bool party_collects(const struct party *party);

/* What a clerk knows it by: the publisher's name, or the writer's last name. */
struct bytes party_name(struct bytes record);

#endif
