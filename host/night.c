#include "night.h"

void night_add(struct night *night, const struct judged *judged) {
    night->files++;
    night->by_outcome[judged->outcome]++;
    night->groups += judged->group_count;
    night->works += judged->work_count;
    night->records += judged->check.count;
    for (size_t i = 0; i < VERDICTS; i++) {
        night->works_by[i] += judged->works_by[i];
        night->records_by[i] += judged->records_by[i];
    }
    for (size_t i = 0; i < FINDINGS; i++)
        night->tally[i] += judged->tally[i];
    night->status = worse_of(night->status, outcome_status(judged->outcome));
    /* A sheet of all files was asked for, and there is none. */
    if (night->sheet.left_out > 0)
        night->status = STATUS_FAILED;
}
