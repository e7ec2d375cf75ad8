#include "works.h"

#include <stdlib.h>

#include "cwr.h"

static bool make_lists(struct judged *judged) {
    const struct check *check = &judged->check;
    struct counts counts = {0, 0};
    for (size_t i = 0; i < check->count; i++)
        count_record(&counts, check->records[i]);
    /* One more of each, so that neither is of length 0. */
    judged->groups = calloc(counts.groups + 1, sizeof *judged->groups);
    judged->works = calloc(counts.transactions + 1, sizeof *judged->works);
    return judged->groups && judged->works;
}

static void begin_group(struct judged *judged, size_t record) {
    bool rejected = judged->check.verdicts[record] == CWR_GROUP_REJECTED;
    judged->groups[judged->group_count++] = (struct group){record, 0, 0, rejected};
}

static void begin_work(struct judged *judged, size_t record) {
    struct work work = {.group = judged->group_count, .header = record, .end = record};
    if (judged->group_count > 0) {
        struct group *group = &judged->groups[judged->group_count - 1];
        work.group_header = group->header;
        work.transaction = group->works++;
    }
    judged->works[judged->work_count++] = work;
}

/* A number without words could be of any level. */
static bool rejects(uint64_t set) {
    for (; set != 0; set &= set - 1) {
        const struct finding *words = finding_words(cwr_findings_lowest(set));
        if (!words || words->level >= CWR_TRANSACTION_REJECTED)
            return true;
    }
    return false;
}

static void add_record(const struct check *check, struct work *work, size_t record) {
    uint8_t verdict = check->verdicts[record];
    work->verdict = verdict > work->verdict ? verdict : work->verdict;
    work->rejects_itself = work->rejects_itself || rejects(check_findings(check, record));
    work->end = record + 1;
}

/* The records between a header and the next header or GRT are its work's. */
static void walk(struct judged *judged) {
    const struct check *check = &judged->check;
    bool in_work = false;
    for (size_t i = 0; i < check->count; i++) {
        judged->records_by[check->verdicts[i]]++;
        if (text_is(check->records[i], "GRH"))
            begin_group(judged, i);
        if (is_header(check->records[i]))
            begin_work(judged, i);
        in_work = is_header(check->records[i]) || (in_work && !text_is(check->records[i], "GRT"));
        if (in_work)
            add_record(check, &judged->works[judged->work_count - 1], i);
    }
}

static void count_works(struct judged *judged) {
    for (size_t i = 0; i < judged->work_count; i++) {
        struct work *work = &judged->works[i];
        judged->works_by[work->verdict]++;
        work->falls_alone = work->verdict == CWR_GROUP_REJECTED && !work->rejects_itself;
        if (work->falls_alone && work->group > 0)
            judged->groups[work->group - 1].falling_alone++;
    }
}

bool works_of(struct judged *judged) {
    if (!make_lists(judged))
        return false;
    walk(judged);
    count_works(judged);
    return true;
}
