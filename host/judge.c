/* How a file is judged: read, checked, taken apart, and its findings gathered; or, with --first, asked for its first work to look at. */
#include <stdlib.h>

#include "cwr.h"
#include "gathering.h"
#include "judged.h"
#include "works.h"

/* By the largest verdict of its works; the first outcomes are in the order of the verdicts. */
static enum outcome outcome_of(const struct judged *judged) {
    size_t verdict = VERDICTS - 1;
    while (verdict > 0 && judged->works_by[verdict] == 0)
        verdict--;
    return verdict < CWR_TRANSACTION_REJECTED ? (enum outcome)verdict : OUTCOME_REJECTED;
}

/* Whether the file is refused by this answer; then that is its outcome, and why is explained. */
static bool is_refused(const struct run *run, struct judged *judged, struct bytes file, uint64_t answer) {
    if (cwr_refusal(answer) == 0)
        return false;
    judged->outcome = OUTCOME_REFUSED;
    refused_explain(&judged->refused, file, answer, run_has_territories(run));
    return true;
}

static bool judge_all(const struct run *run, struct bytes file, struct judged *judged) {
    if (!check_run(run, file, &judged->check, &judged->why))
        return false;
    if (is_refused(run, judged, file, judged->check.answer))
        return true;
    if (!works_of(judged))
        return fail(&judged->why, "needs more memory than there is");
    if (!gather_findings(run, judged))
        return fail(&judged->why, "needs more memory than there is; --most lets less be told");
    judged->outcome = outcome_of(judged);
    return true;
}

/* No work is rejected with its group unless one is for something in itself. So where there is none to look at, none is rejected. */
static bool judge_first(const struct run *run, struct bytes file, struct judged *judged) {
    uint64_t answer = run_first(run, file);
    if (is_refused(run, judged, file, answer))
        return true;
    bool any = cwr_place(answer) != CWR_NO_TRANSACTION;
    judged->outcome = any ? OUTCOME_REJECTED : OUTCOME_NONE_REJECTED;
    return !any || first_find(file, cwr_place(answer), &judged->first, &judged->why);
}

void judge(const struct run *run, const char *path, struct judged *judged) {
    *judged = (struct judged){.name = file_title(path), .outcome = OUTCOME_FAILED};
    if (!file_read(path, CWR_MOST_BYTES, &judged->content, &judged->why))
        return;
    struct bytes file = {judged->content.bytes, judged->content.length};
    bool done = run->options->first ? judge_first(run, file, judged) : judge_all(run, file, judged);
    if (!done)
        judged->outcome = OUTCOME_FAILED;
}

void judge_failed(const char *path, const char *why, struct judged *judged) {
    *judged = (struct judged){.name = file_title(path), .outcome = OUTCOME_FAILED};
    fail(&judged->why, "%s", why);
}

void judged_free(struct judged *judged) {
    refused_free(&judged->refused);
    free(judged->groups);
    free(judged->works);
    free(judged->found);
    free(judged->fields);
    free(judged->parties);
    check_free(&judged->check);
    file_free(&judged->content);
}
