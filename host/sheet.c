#include "sheet.h"

bool sheet_take(struct sheet *sheet, const struct run *run, const struct judged *judged) {
    if (judged->outcome == OUTCOME_FAILED)
        return true;
    struct bytes file = {judged->content.bytes, judged->content.length};
    uint64_t answer = run_sheet(run, file, sheet->bytes, sizeof sheet->bytes);
    bool full = cwr_refusal(answer) == SHEET_REFUSED;
    sheet->left_out += full;
    return full || answer == judged->check.answer;
}

void sheet_tally(const struct sheet *sheet, size_t tally[FINDINGS]) {
    for (size_t number = 0; number < FINDINGS; number++)
        tally[number] = (size_t)cwr_sheet_finding(sheet->bytes, number);
}

void sheet_records_by(const struct sheet *sheet, size_t by[VERDICTS]) {
    for (size_t verdict = 0; verdict < VERDICTS; verdict++)
        by[verdict] = (size_t)cwr_sheet_verdict(sheet->bytes, verdict);
}
