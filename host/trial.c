#include "trial.h"

#include <stdlib.h>
#include <string.h>

#include "cwr.h"

/* HDR, GRH, GRT and TRL. */
enum { CONTROLS = 4, LINE_END = 2 };

struct trial trial_of(const struct run *run, const struct check *check) {
    return (struct trial){.run = run, .check = check};
}

void trial_free(struct trial *trial) {
    free(trial->bytes);
    free(trial->numbered);
    free(trial->verdicts);
    free(trial->findings);
}

/* A trial has each record at most once, so it is never longer than the file. */
static bool make_room(struct trial *trial) {
    size_t length = trial->check->file.length + LINE_END, records = trial->check->count;
    if (!trial->bytes) {
        trial->bytes = malloc(length);
        trial->numbered = malloc(length);
        trial->verdicts = malloc(records);
        trial->findings = malloc(records * CWR_FINDING_BYTES);
    }
    return trial->bytes && trial->numbered && trial->verdicts && trial->findings;
}

/* So is any file that passed, and then no record can be added twice. A library of another edition could pass others. */
static bool is_framed(const struct check *check, size_t group_header) {
    size_t count = check->count;
    return count >= CONTROLS && text_is(check->records[0], "HDR") && text_is(check->records[group_header], "GRH") &&
           text_is(check->records[count - 2], "GRT") && text_is(check->records[count - 1], "TRL");
}

bool trial_begin(struct trial *trial, size_t group_header) {
    if (!is_framed(trial->check, group_header) || !make_room(trial))
        return false;
    trial->length = 0;
    trial->records = 0;
    trial_add(trial, 0);
    trial_add(trial, group_header);
    return true;
}

uint8_t *trial_add(struct trial *trial, size_t record) {
    struct bytes text = trial->check->records[record];
    uint8_t *to = trial->bytes + trial->length;
    memmove(to, text.at, text.length);
    memmove(to + text.length, "\r\n", LINE_END);
    trial->length += text.length + LINE_END;
    trial->records++;
    return to;
}

bool trial_finds(struct trial *trial, size_t record, uint32_t finding) {
    size_t last = trial->check->count - 1;
    trial_add(trial, last - 1);
    trial_add(trial, last);
    if (cwr_refusal(cwr_number(trial->bytes, trial->length, trial->numbered, trial->length)) != 0)
        return false;
    uint8_t over[CWR_OVER_BYTES];
    uint64_t answer = run_check(trial->run, (struct bytes){trial->numbered, trial->length}, trial->verdicts, trial->records,
                                trial->findings, trial->records * CWR_FINDING_BYTES, over);
    if (cwr_refusal(answer) != 0 || record >= trial->records)
        return false;
    return (cwr_findings_of(trial->findings, record) >> finding & 1) != 0;
}
