#include "pointing.h"

#include <string.h>

static bool has_digit(struct bytes text, size_t at) {
    return at < text.length && text.at[at] >= '0' && text.at[at] <= '9';
}

/* A field of a copied record overwritten, as far as the record has it. */
static void put(uint8_t *copy, struct bytes record, size_t start, size_t size, const char *text) {
    struct bytes field = text_field(record, start, size);
    memmove(copy + (field.at - record.at), text, field.length);
}

/* ---- fields */

/* Asks with a territory table of this code alone: a table of the run may lack any code. */
static bool finds_with_territory(struct trial *trial, const struct found *found, const char *code) {
    uint8_t entry[CWR_TERRITORY_BYTES];
    const struct run *run = trial->run;
    struct run other = *run;
    territory_put(entry, (const uint8_t *)code, NO_TERRITORY);
    other.territories = (struct territories){entry, 1};
    trial->run = &other;
    bool finds = trial_finds(trial, TRIAL_DETAIL, found->number);
    trial->run = run;
    return finds;
}

/* Whether the finding holds for this field alone: all others that could be wrong hold what never is. */
static bool is_wrong(struct trial *trial, const struct work *work, const struct found *found, size_t field) {
    const struct field *fields = found->words->fields;
    struct bytes record = trial->check->records[found->record];
    const char *territory = NULL;
    if (found->record == work->header || !trial_begin(trial, work->group_header))
        return false;
    trial_add(trial, work->header);
    uint8_t *copy = trial_add(trial, found->record);
    for (size_t i = 0; i < MOST_FIELDS && fields[i].name; i++) {
        if (i == field || !fields[i].neutral)
            continue;
        put(copy, record, field_start(&fields[i], record), fields[i].size, fields[i].neutral);
        territory = fields[i].is_territory ? fields[i].neutral : territory;
    }
    return territory ? finds_with_territory(trial, found, territory) : trial_finds(trial, TRIAL_DETAIL, found->number);
}

/* Where the library tells of none, it is not known which, and all are told. */
void point_fields(struct trial *trial, const struct work *work, const struct found *found, bool told[MOST_FIELDS]) {
    const struct field *fields = found->words->fields;
    bool any = false;
    for (size_t i = 0; i < MOST_FIELDS && fields[i].name; i++) {
        told[i] = !fields[i].neutral || is_wrong(trial, work, found, i);
        any = any || (fields[i].neutral && told[i]);
    }
    for (size_t i = 0; i < MOST_FIELDS && fields[i].name; i++)
        told[i] = told[i] || !any;
}

/* ---- rights */

static void put_no_shares(struct trial *trial, uint8_t *copy, size_t record, size_t but) {
    struct bytes text = trial->check->records[record];
    for (size_t right = 0; right < RIGHTS; right++) {
        size_t start = share_start(text, right);
        if (right != but && start != 0)
            put(copy, text, start, SHARE_SIZE, "00000");
    }
}

/* Whether the finding holds for this right alone: no other has a share. */
static bool does_not_fit(struct trial *trial, const struct work *work, const struct found *found, size_t right) {
    if (!trial_begin(trial, work->group_header))
        return false;
    for (size_t i = work->header; i < work->end; i++)
        put_no_shares(trial, trial_add(trial, i), i, right);
    return trial_finds(trial, TRIAL_HEADER, found->number);
}

/* As with fields: where the library tells of none, all are told. */
void point_rights(struct trial *trial, const struct work *work, struct found *found) {
    bool any = false;
    for (size_t right = 0; right < RIGHTS; right++) {
        found->rights[right] = does_not_fit(trial, work, found, right);
        any = any || found->rights[right];
    }
    for (size_t right = 0; right < RIGHTS; right++)
        found->rights[right] = found->rights[right] || !any;
}

/* ---- the record */

/* Whether the finding holds of the work when it has its first details alone. */
static bool holds_with(struct trial *trial, const struct work *work, const struct found *found, size_t details) {
    if (!trial_begin(trial, work->group_header))
        return false;
    for (size_t i = work->header; i <= work->header + details; i++)
        trial_add(trial, i);
    return trial_finds(trial, TRIAL_HEADER, found->number);
}

/* These findings hold of a work with more details once they hold of one with fewer, so the search halves what is left. */
void point_record(struct trial *trial, const struct work *work, struct found *found) {
    size_t without = 0, with = work->end - work->header - 1; /* it does not hold with so few, and does with so many */
    if (with == 0 || holds_with(trial, work, found, 0) || !holds_with(trial, work, found, with))
        return;
    while (with - without > 1) {
        size_t middle = without + (with - without) / 2;
        if (holds_with(trial, work, found, middle))
            with = middle;
        else
            without = middle;
    }
    found->culprit = work->header + with;
}

/* ---- the chain */

/* The number of the chain that a record is of; NO_CHAIN where it is of none. */
static unsigned chain_of(struct bytes record) {
    struct bytes number = text_field(record, 20, 2);
    bool publisher = text_is(record, "SPU") || text_is(record, "OPU");
    if (!publisher || !has_digit(number, 0) || !has_digit(number, 1))
        return NO_CHAIN;
    return (unsigned)(number.at[0] - '0') * 10 + (unsigned)(number.at[1] - '0');
}

/* Whether the finding holds of the work when it has the chain alone that begins with this record. */
static bool holds_of_chain(struct trial *trial, const struct work *work, const struct found *found, size_t first) {
    if (!trial_begin(trial, work->group_header))
        return false;
    unsigned chain = chain_of(trial->check->records[first]);
    trial_add(trial, work->header);
    for (size_t i = first; i < work->end; i++)
        if (chain_of(trial->check->records[i]) == chain)
            trial_add(trial, i);
    return trial_finds(trial, TRIAL_HEADER, found->number);
}

void point_chain(struct trial *trial, const struct work *work, struct found *found) {
    bool seen[NO_CHAIN + 1] = {[NO_CHAIN] = true};
    for (size_t i = work->header + 1; i < work->end; i++) {
        unsigned chain = chain_of(trial->check->records[i]);
        if (!seen[chain] && holds_of_chain(trial, work, found, i)) {
            found->culprit = i;
            found->chain = chain;
            return;
        }
        seen[chain] = true;
    }
}
