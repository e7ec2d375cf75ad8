#include "judged.h"

enum { SHORT_FIELD = 14 };

static const struct {
    const char *words, *of_files;
    enum status status;
    bool of_check, of_first;
} outcomes[OUTCOMES] = {
    [OUTCOME_ACCEPTED] = {"accepted", "accepted", STATUS_ACCEPTED, true, false},
    [OUTCOME_DEFAULTED] = {"accepted with defaults", "accepted with defaults", STATUS_DEFAULTED, true, false},
    [OUTCOME_LEFT_OUT] = {"accepted with records left out", "accepted with records left out", STATUS_DEFAULTED, true, false},
    [OUTCOME_NONE_REJECTED] = {"no work rejected", "with no work rejected", STATUS_ACCEPTED, false, true},
    [OUTCOME_REJECTED] = {"works rejected", "with works rejected", STATUS_REJECTED, true, true},
    [OUTCOME_REFUSED] = {"refused", "refused", STATUS_REFUSED, true, true},
    [OUTCOME_FAILED] = {"not checked", "not checked", STATUS_FAILED, true, true},
};

const char *outcome_words(enum outcome outcome) {
    return outcomes[outcome].words;
}

const char *outcome_of_files(enum outcome outcome) {
    return outcomes[outcome].of_files;
}

enum status outcome_status(enum outcome outcome) {
    return outcomes[outcome].status;
}

bool outcome_is_of(enum outcome outcome, bool first) {
    return first ? outcomes[outcome].of_first : outcomes[outcome].of_check;
}

size_t found_column(const struct judged *judged, const struct found *found) {
    return found->field_count > 0 ? judged->fields[found->fields].start : 1;
}

struct bytes work_header(const struct judged *judged, const struct work *work) {
    return judged->check.records[work->header];
}

struct bytes header_number(struct bytes header) {
    return text_trimmed(text_field(header, 82, 14));
}

struct bytes header_title(struct bytes header) {
    return text_trimmed(text_field(header, 20, 60));
}

struct bytes field_shown(const struct found_field *field) {
    struct bytes trimmed = text_trimmed(field->text);
    return trimmed.length == 0 || field->field->size > SHORT_FIELD ? trimmed : field->text;
}

static size_t sum_of(const size_t *numbers, size_t count) {
    size_t sum = 0;
    for (size_t i = 0; i < count; i++)
        sum += numbers[i];
    return sum;
}

size_t tally_sum(const size_t tally[FINDINGS]) {
    return sum_of(tally, FINDINGS);
}

size_t records_sum(const size_t by[VERDICTS]) {
    return sum_of(by, VERDICTS);
}
