#include "claims.h"

#include <stdlib.h>
#include <string.h>

#include "words.h"

/* In an SPT and an OPT. */
enum { MARK_START = 50, MARK_SIZE = 1, TERRITORY_START = 51 };

/* ---- the claims of a work */

static bool is_party(struct bytes record) {
    return is_publisher(record) || is_writer(record);
}

static bool is_claim(struct bytes record) {
    return text_is(record, "SPT") || text_is(record, "OPT") || text_is(record, "SWT") || text_is(record, "OWT");
}

static bool excludes(struct bytes record) {
    struct bytes mark = text_field(record, claim_start(record, MARK_START), MARK_SIZE);
    return mark.length == MARK_SIZE && mark.at[0] == 'E';
}

static void add_claim(struct claims *claims, struct bytes record, size_t party) {
    static const size_t starts[RIGHTS] = {35, 40, 45};
    struct bytes code = text_field(record, claim_start(record, TERRITORY_START), TERRITORY_CODE);
    struct claim claim = {.party = party, .territory = territory_of(claims->territories, code)};
    if (claim.territory == NO_TERRITORY)
        return;
    for (size_t right = 0; right < RIGHTS && !excludes(record); right++)
        claim.shares[right] = share_at(record, claim_start(record, starts[right]));
    claims->list[claims->count++] = claim;
}

bool claims_read(struct claims *claims, const struct territories *territories, const struct check *check, size_t header, size_t end) {
    size_t party = header; /* a header is none */
    *claims = (struct claims){territories, malloc((end - header) * sizeof *claims->list), 0};
    if (!claims->list)
        return false;
    for (size_t i = header + 1; i < end; i++) {
        struct bytes record = check->records[i];
        if (is_party(record))
            party = i;
        if (is_claim(record) && party != header && !check_finds(check, i, CLAIM_FOUND))
            add_claim(claims, record, party);
    }
    return true;
}

void claims_free(struct claims *claims) {
    free(claims->list);
    *claims = (struct claims){NULL, NULL, 0};
}

/* ---- what they come to in a territory */

/* A claim speaks of a territory where it names that or a group that holds it. */
struct parties parties_in(const struct claims *claims, size_t territory) {
    struct parties parties = {.claims = claims};
    for (size_t place = territory; place != NO_TERRITORY; place = territory_group(claims->territories, place))
        parties.speaks[place] = true;
    return parties;
}

/* The last of its claims that speaks of the territory is the one that counts. */
bool parties_next(struct parties *parties, struct party *party) {
    const struct claims *claims = parties->claims;
    if (parties->at == claims->count)
        return false;
    *party = (struct party){.record = claims->list[parties->at].party};
    for (; parties->at < claims->count && claims->list[parties->at].party == party->record; parties->at++)
        if (parties->speaks[claims->list[parties->at].territory])
            memmove(party->shares, claims->list[parties->at].shares, sizeof party->shares);
    return true;
}

void claims_total(const struct claims *claims, size_t territory, uint64_t totals[RIGHTS]) {
    struct parties parties = parties_in(claims, territory);
    struct party party;
    memset(totals, 0, RIGHTS * sizeof *totals);
    while (parties_next(&parties, &party))
        for (size_t right = 0; right < RIGHTS; right++)
            totals[right] += party.shares[right];
}

static bool is_over(const struct claims *claims, size_t territory, uint64_t most) {
    uint64_t totals[RIGHTS];
    claims_total(claims, territory, totals);
    return totals[CWR_PR] > most || totals[CWR_MR] > most || totals[CWR_SR] > most;
}

size_t claims_first_over(const struct claims *claims, uint64_t most) {
    const struct territories *territories = claims->territories;
    bool holds_another[CWR_MOST_TERRITORIES] = {false};
    for (size_t place = 0; place < territories->count; place++)
        if (territory_group(territories, place) != NO_TERRITORY)
            holds_another[territory_group(territories, place)] = true;
    for (size_t place = 0; place < territories->count; place++)
        if (!holds_another[place] && is_over(claims, place, most))
            return place;
    return NO_TERRITORY;
}

/* ---- parties */

bool party_collects(const struct party *party) {
    return (party->shares[CWR_PR] | party->shares[CWR_MR] | party->shares[CWR_SR]) != 0;
}

struct bytes party_name(struct bytes record) {
    return text_trimmed(is_publisher(record) ? text_field(record, 31, 45) : text_field(record, 29, 45));
}
