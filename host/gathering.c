#include "gathering.h"

#include <stdlib.h>

#include "cwr.h"
#include "pointing.h"

enum { FIRST_ROOM = 64 };

/* Where the gathering stands. */
struct gathering {
    struct judged *judged;
    size_t level, most; /* what is told: of this level and above, and how many at most */
    size_t told;
    struct trial trial;
    size_t found_room, field_room, party_room;
};

/* Room for one more entry of this size; null where there is no memory, and then what was there is as before. */
static void *with_room(void *list, size_t count, size_t *room, size_t size) {
    if (count < *room)
        return list;
    size_t more = *room == 0 ? FIRST_ROOM : *room * 2;
    void *larger = realloc(list, more * size);
    if (larger)
        *room = more;
    return larger;
}

static bool add_field(struct gathering *to, const struct work *work, const struct found *found, const struct field *field) {
    struct judged *judged = to->judged;
    void *fields = with_room(judged->fields, judged->field_count, &to->field_room, sizeof *judged->fields);
    if (!fields)
        return false;
    struct bytes record = judged->check.records[field->of_group ? work->group_header : found->record];
    size_t start = field_start(field, record);
    judged->fields = fields;
    judged->fields[judged->field_count++] = (struct found_field){field, start, text_field(record, start, field->size)};
    return true;
}

static bool add_fields(struct gathering *to, const struct work *work, struct found *found) {
    bool told[MOST_FIELDS] = {false};
    found->fields = to->judged->field_count;
    point_fields(&to->trial, work, found, told);
    for (size_t i = 0; i < MOST_FIELDS; i++)
        if (told[i] && !add_field(to, work, found, &found->words->fields[i]))
            return false;
    found->field_count = to->judged->field_count - found->fields;
    return true;
}

static bool add_party(struct gathering *to, const struct party *party) {
    struct judged *judged = to->judged;
    void *parties = with_room(judged->parties, judged->party_count, &to->party_room, sizeof *judged->parties);
    if (!parties)
        return false;
    judged->parties = parties;
    judged->parties[judged->party_count++] = *party;
    return true;
}

/* Those who collect something in the territory. */
static bool add_parties(struct gathering *to, const struct claims *claims, struct found *found) {
    struct parties parties = parties_in(claims, found->territory);
    struct party party;
    found->parties = to->judged->party_count;
    while (parties_next(&parties, &party))
        if (party_collects(&party) && !add_party(to, &party))
            return false;
    found->party_count = to->judged->party_count - found->parties;
    return true;
}

static bool add_collected(struct gathering *to, const struct claims *claims, struct found *found) {
    uint64_t most = collected_range.most + to->trial.run->tolerance;
    found->territory = claims_first_over(claims, most);
    if (found->territory == NO_TERRITORY)
        return true;
    claims_total(claims, found->territory, found->totals);
    for (size_t right = 0; right < RIGHTS; right++)
        found->rights[right] = found->totals[right] > most;
    return add_parties(to, claims, found);
}

/* Where a finding speaks of some territory: which it is, what is collected there, and by whom. */
static bool add_territory(struct gathering *to, const struct work *work, struct found *found) {
    const struct run *run = to->trial.run;
    struct claims claims;
    if (found->number != OVER_FOUND || found->record != work->header || !run_has_territories(run))
        return true;
    if (!claims_read(&claims, &run->territories, &to->judged->check, work->header, work->end))
        return false;
    bool done = add_collected(to, &claims, found);
    claims_free(&claims);
    return done;
}

/* A finding that speaks of the whole work stands on its header. */
static void point(struct gathering *to, const struct work *work, struct found *found) {
    if (found->record != work->header)
        return;
    if (found->words->ranges)
        point_rights(&to->trial, work, found);
    if (found->words->points == POINTS_TO_RECORD)
        point_record(&to->trial, work, found);
    if (found->words->points == POINTS_TO_CHAIN)
        point_chain(&to->trial, work, found);
}

static bool add_found(struct gathering *to, const struct work *work, size_t record, uint32_t number) {
    struct judged *judged = to->judged;
    struct found found = {.number = number, .words = finding_words(number), .record = record, .culprit = NO_RECORD, .chain = NO_CHAIN,
                          .territory = NO_TERRITORY};
    void *list = with_room(judged->found, judged->found_count, &to->found_room, sizeof *judged->found);
    if (!list)
        return false;
    judged->found = list;
    if (found.words) {
        point(to, work, &found);
        if (!add_fields(to, work, &found) || !add_territory(to, work, &found))
            return false;
    }
    judged->found[judged->found_count++] = found;
    to->told++;
    return true;
}

/* A number without words could be of any level, so it is never kept back. */
static bool is_asked_for(const struct gathering *to, uint32_t number) {
    const struct finding *words = finding_words(number);
    return !words || words->level >= to->level;
}

static bool gather_record(struct gathering *to, const struct work *work, size_t record) {
    /* The lowest first, each taken away once it was told. */
    for (uint64_t left = check_findings(&to->judged->check, record); left != 0; left &= left - 1) {
        uint32_t number = cwr_findings_lowest(left);
        if (!is_asked_for(to, number))
            continue;
        to->judged->tally[number]++;
        if (to->told >= to->most)
            to->judged->findings_left_out++;
        else if (!add_found(to, work, record, number))
            return false;
    }
    return true;
}

/* A work that falls with its group alone is told without a finding too, and counts as much as one. */
static void gather_fallen(struct gathering *to, struct work *work) {
    work->told = to->told < to->most;
    to->told += work->told;
    to->judged->works_left_out += !work->told;
}

static bool gather_work(struct gathering *to, struct work *work) {
    struct judged *judged = to->judged;
    work->found = judged->found_count;
    size_t left_out = judged->findings_left_out;
    for (size_t i = work->header; i < work->end; i++)
        if (!gather_record(to, work, i))
            return false;
    work->found_count = judged->found_count - work->found;
    work->told = work->found_count > 0;
    if (work->falls_alone && work->found_count == 0 && judged->findings_left_out == left_out)
        gather_fallen(to, work);
    judged->works_told += work->told;
    for (size_t i = work->header; work->told && i < work->end; i++)
        add_shares(&work->shares, judged->check.records[i]);
    return true;
}

bool gather_findings(const struct run *run, struct judged *judged) {
    struct gathering to = {judged, run->options->level, run->options->most, 0, trial_of(run, &judged->check), 0, 0, 0};
    bool done = true;
    if (run->options->list || (run->options->summary && !run->options->html))
        to.most = 0;
    for (size_t i = 0; done && i < judged->work_count; i++)
        done = gather_work(&to, &judged->works[i]);
    trial_free(&to.trial);
    return done;
}
