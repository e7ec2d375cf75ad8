/* The listing of one file: a line of counts, then a line a record; or the refusal. For other programs to read. */
#include "cwr.h"
#include "reports.h"

/* Number, type, verdict, number of findings, lowest finding or a dash. */
static void print_record(struct out *out, const struct check *check, size_t record) {
    uint64_t set = check_findings(check, record);
    uint32_t lowest = cwr_findings_lowest(set);
    say(out, "%zu ", record);
    say_text(out, text_field(check->records[record], 1, 3));
    say(out, " %u %u ", check->verdicts[record], cwr_findings_count(set));
    if (lowest == CWR_NONE)
        say(out, "-\n");
    else
        say(out, "%u\n", lowest);
}

static void print_file(struct out *out, const struct run *run, const struct judged *judged) {
    (void)run;
    if (judged->outcome == OUTCOME_FAILED)
        return;
    if (judged->outcome == OUTCOME_REFUSED) {
        say(out, "REFUSED %u %u\n", judged->refused.number, judged->refused.place);
        return;
    }
    say(out, "GROUPS %zu TRANSACTIONS %zu RECORDS %zu\n", judged->group_count, judged->work_count, judged->check.count);
    for (size_t i = 0; i < judged->check.count; i++)
        print_record(out, &judged->check, i);
}

const struct report list_report = {NULL, print_file, NULL};
