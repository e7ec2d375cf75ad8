/* An object a line, for other programs to read: JSON by RFC 8259, in UTF-8. */
#include "cwr.h"
#include "json.h"
#include "reports.h"
#include "version.h"

/* ---- findings */

static void print_fields(struct json *json, const struct judged *judged, const struct found *found) {
    json_list(json, "fields");
    for (size_t i = 0; i < found->field_count; i++) {
        const struct found_field *field = &judged->fields[found->fields + i];
        json_object(json, NULL);
        json_words(json, "name", field->field->name);
        json_number(json, "start", field->start);
        json_number(json, "size", field->field->size);
        json_text(json, "value", field->text);
        json_words(json, "right", field->field->right);
        json_end_object(json);
    }
    json_end_list(json);
}

static void print_shares(struct json *json, const struct run *run, const struct work *work, const struct found *found) {
    json_list(json, "shares");
    for (size_t right = 0; found->words && found->words->ranges && right < RIGHTS; right++)
        if (found->rights[right]) {
            json_object(json, NULL);
            json_words(json, "of", right_names[right]);
            json_percent(json, "publishers", work->shares.publishers[right]);
            json_percent(json, "writers", work->shares.writers[right]);
            json_percent(json, "together", work->shares.publishers[right] + work->shares.writers[right]);
            json_words(json, "right", range_within(&found->words->ranges[right], run->tolerance).words);
            json_end_object(json);
        }
    json_end_list(json);
}

/* ---- of a finding that speaks of some territory */

static void print_groups(struct json *json, const struct run *run, size_t territory) {
    json_list(json, "groups");
    while (territory != NO_TERRITORY) {
        territory = territory_group(&run->territories, territory);
        if (territory != NO_TERRITORY)
            json_text(json, NULL, territory_code(&run->territories, territory));
    }
    json_end_list(json);
}

static void print_totals(struct json *json, const struct run *run, const struct found *found) {
    json_list(json, "totals");
    for (size_t right = 0; found->territory != NO_TERRITORY && right < RIGHTS; right++) {
        json_object(json, NULL);
        json_words(json, "of", right_names[right]);
        json_percent(json, "together", found->totals[right]);
        json_truth(json, "over", found->rights[right]);
        json_words(json, "right", range_within(&collected_range, run->tolerance).words);
        json_end_object(json);
    }
    json_end_list(json);
}

static void print_parties(struct json *json, const struct judged *judged, const struct found *found) {
    json_list(json, "parties");
    for (size_t i = 0; i < found->party_count; i++) {
        const struct party *party = &judged->parties[found->parties + i];
        struct bytes record = judged->check.records[party->record];
        json_object(json, NULL);
        json_number(json, "line", party->record + 1);
        json_text(json, "type", text_field(record, 1, 3));
        json_text(json, "name", party_name(record));
        json_object(json, "shares");
        for (size_t right = 0; right < RIGHTS; right++)
            json_percent(json, right_names[right], party->shares[right]);
        json_end_object(json);
        json_end_object(json);
    }
    json_end_list(json);
}

static void print_territory(struct json *json, const struct run *run, const struct judged *judged, const struct found *found) {
    if (found->number != OVER_FOUND || !run_has_territories(run))
        return;
    if (found->territory == NO_TERRITORY)
        json_words(json, "territory", NULL);
    else
        json_text(json, "territory", territory_code(&run->territories, found->territory));
    print_groups(json, run, found->territory);
    print_totals(json, run, found);
    print_parties(json, judged, found);
}

/* ---- one finding */

static void print_culprit(struct json *json, const struct judged *judged, const struct found *found) {
    char chain[3] = {(char)('0' + found->chain / 10 % 10), (char)('0' + found->chain % 10), '\0'};
    if (found->culprit == NO_RECORD) {
        json_words(json, "culprit", NULL);
        return;
    }
    json_object(json, "culprit");
    json_number(json, "line", found->culprit + 1);
    json_text(json, "type", text_field(judged->check.records[found->culprit], 1, 3));
    json_words(json, "chain", found->chain == NO_CHAIN ? NULL : chain);
    json_end_object(json);
}

static void print_found(struct json *json, const struct run *run, const struct judged *judged, const struct work *work,
                        const struct found *found) {
    json_object(json, NULL);
    json_words(json, "kind", "finding");
    json_name(json, "file", judged->name);
    json_number(json, "line", found->record + 1);
    json_number(json, "column", found_column(judged, found));
    json_text(json, "type", text_field(judged->check.records[found->record], 1, 3));
    json_text(json, "work", header_number(work_header(judged, work)));
    json_words(json, "level", found->words ? level_name(found->words->level) : NULL);
    json_number(json, "finding", found->number);
    json_words(json, "edit", found->words ? found->words->edit : NULL);
    json_words(json, "words", found->words ? found->words->sentence : NULL);
    json_words(json, "default", found->words ? found->words->put : NULL);
    json_words(json, "verdict", verdict_of_record(judged->check.verdicts[found->record]));
    print_fields(json, judged, found);
    print_shares(json, run, work, found);
    print_culprit(json, judged, found);
    print_territory(json, run, judged, found);
    json_end_line(json);
}

/* ---- works */

/* What a clerk knows a work by, and where it stands in the file's own numbers. */
static void print_header(struct json *json, struct bytes header, size_t group, size_t transaction) {
    json_text(json, "type", text_field(header, 1, 3));
    json_text(json, "work", header_number(header));
    json_text(json, "title", header_title(header));
    json_number(json, "group", group);
    json_number(json, "transaction", transaction);
}

static void print_work(struct json *json, const struct run *run, const struct judged *judged, const struct work *work) {
    json_object(json, NULL);
    json_words(json, "kind", "work");
    json_name(json, "file", judged->name);
    json_number(json, "line", work->header + 1);
    json_number(json, "last_line", work->end);
    print_header(json, work_header(judged, work), work->group, work->transaction);
    json_words(json, "verdict", verdict_of_work(work->verdict));
    json_truth(json, "falls_alone", work->falls_alone);
    json_end_line(json);
    for (size_t i = work->found; i < work->found + work->found_count; i++)
        print_found(json, run, judged, work, &judged->found[i]);
}

static void print_group(struct json *json, const struct judged *judged, const struct group *group, size_t number) {
    if (!group->rejected)
        return;
    json_object(json, NULL);
    json_words(json, "kind", "group");
    json_name(json, "file", judged->name);
    json_number(json, "line", group->header + 1);
    json_number(json, "group", number);
    json_text(json, "opened_for", text_field(judged->check.records[group->header], 4, 3));
    json_number(json, "works", group->works);
    json_number(json, "works_falling_alone", group->falling_alone);
    json_end_line(json);
}

/* ---- files */

static void print_counts(struct json *json, const char *name, const size_t by[VERDICTS], const char *(*words)(size_t)) {
    json_object(json, name);
    for (size_t verdict = 0; verdict < VERDICTS; verdict++)
        json_number(json, words(verdict), by[verdict]);
    json_end_object(json);
}

static void print_refused(struct json *json, const struct refused *refused) {
    json_object(json, "refused");
    json_number(json, "number", refused->number);
    json_number(json, "place", refused->place);
    json_words(json, "words", refused->sentence);
    json_name(json, "detail", refused_reason(refused) != refused->sentence ? refused->detail : NULL);
    if (refused->has_line) {
        json_number(json, "line", (size_t)refused->place + 1);
        json_number(json, "column", refused->column);
        json_truth(json, "ends_before", refused->ends);
        json_text(json, "text", text_field(refused->text, 1, 1000));
        json_number(json, "length", refused->text.length);
    }
    json_end_object(json);
}

/* What every file object begins with. */
static void begin_file(struct json *json, const struct judged *judged) {
    json_object(json, NULL);
    json_words(json, "kind", "file");
    json_name(json, "file", judged->name);
    json_words(json, "outcome", outcome_words(judged->outcome));
    json_number(json, "status", (size_t)outcome_status(judged->outcome));
    if (judged->outcome == OUTCOME_FAILED)
        json_name(json, "why", judged->why.words);
    if (judged->outcome == OUTCOME_REFUSED)
        print_refused(json, &judged->refused);
}

static void print_file_object(struct json *json, const struct judged *judged) {
    begin_file(json, judged);
    json_number(json, "groups", judged->group_count);
    json_number(json, "works", judged->work_count);
    json_number(json, "records", judged->check.count);
    json_number(json, "findings", tally_sum(judged->tally));
    print_counts(json, "works_by_verdict", judged->works_by, verdict_of_work);
    print_counts(json, "records_by_verdict", judged->records_by, verdict_of_record);
    json_number(json, "findings_left_out", judged->findings_left_out);
    json_number(json, "works_left_out", judged->works_left_out);
    json_end_line(json);
}

static void print_file(struct out *out, const struct run *run, const struct judged *judged) {
    struct json json = json_to(out);
    print_file_object(&json, judged);
    if (run->options->summary)
        return;
    for (size_t i = 0; i < judged->group_count; i++)
        print_group(&json, judged, &judged->groups[i], i + 1);
    for (size_t i = 0; i < judged->work_count; i++)
        if (judged->works[i].told)
            print_work(&json, run, judged, &judged->works[i]);
}

/* ---- the run and the night */

static void print_run(struct out *out, const struct run *run) {
    struct json json = json_to(out);
    json_object(&json, NULL);
    json_words(&json, "kind", "run");
    json_words(&json, "version", CWRCHECK_VERSION);
    json_percent(&json, "tolerance", run->tolerance);
    json_name(&json, "tables", run->options->tables);
    for (size_t place = 0; place < TABLES; place++)
        json_number(&json, table_plural(place), table_count(&run->tables, place));
    if (run_has_territories(run)) {
        json_name(&json, "territory_table", run->options->territories);
        json_number(&json, "territories", run->territories.count);
    }
    json_words(&json, "level", level_name(run->options->level));
    json_end_line(&json);
}

static void print_tally(struct json *json, const size_t tally[FINDINGS]) {
    json_list(json, "tally");
    for (uint32_t number = 0; number < FINDINGS; number++) {
        const struct finding *words = finding_words(number);
        if (tally[number] == 0)
            continue;
        json_object(json, NULL);
        json_number(json, "finding", number);
        json_words(json, "level", words ? level_name(words->level) : NULL);
        json_words(json, "edit", words ? words->edit : NULL);
        json_words(json, "words", words ? words->sentence : NULL);
        json_number(json, "times", tally[number]);
        json_end_object(json);
    }
    json_end_list(json);
}

/* What every total begins with. */
static void begin_total(struct json *json, const struct run *run, const struct night *night) {
    json_object(json, NULL);
    json_words(json, "kind", "total");
    json_number(json, "status", (size_t)night->status);
    json_number(json, "files", night->files);
    json_object(json, "files_by_outcome");
    for (size_t outcome = 0; outcome < OUTCOMES; outcome++)
        if (outcome_is_of((enum outcome)outcome, run->options->first))
            json_number(json, outcome_words((enum outcome)outcome), night->by_outcome[outcome]);
    json_end_object(json);
}

/* Shares as the library's sheet has them. */
static void print_rights(struct json *json, const uint8_t *sheet) {
    json_list(json, "rights");
    for (size_t right = 0; right < RIGHTS; right++) {
        json_object(json, NULL);
        json_words(json, "of", right_names[right]);
        json_number(json, "transactions_that_miss", (size_t)cwr_sheet_missing(sheet, right));
        json_number(json, "largest_shortfall_hundredths", (size_t)cwr_sheet_shortfall(sheet, right));
        json_number(json, "largest_excess_hundredths", (size_t)cwr_sheet_excess(sheet, right));
        json_signed(json, "sum_hundredths", cwr_sheet_sum(sheet, right));
        json_end_object(json);
    }
    json_end_list(json);
}

static void print_sheet(struct json *json, const struct night *night) {
    const struct sheet *sheet = &night->sheet;
    size_t tally[FINDINGS], by[VERDICTS], failed = night->by_outcome[OUTCOME_FAILED];
    sheet_tally(sheet, tally);
    sheet_records_by(sheet, by);
    json_object(json, NULL);
    json_words(json, "kind", "sheet");
    json_truth(json, "complete", sheet->left_out == 0 && failed == 0);
    json_number(json, "files", (size_t)cwr_sheet_files(sheet->bytes));
    json_number(json, "files_refused", (size_t)cwr_sheet_refused(sheet->bytes));
    json_number(json, "files_left_out", sheet->left_out);
    json_number(json, "files_not_checked", failed);
    print_rights(json, sheet->bytes);
    json_number(json, "records", records_sum(by));
    print_counts(json, "records_by_verdict", by, verdict_of_record);
    print_tally(json, tally);
    json_end_line(json);
}

/* The total stays the last line. */
static void print_night(struct out *out, const struct run *run, const struct night *night) {
    struct json json = json_to(out);
    if (run->options->sheet)
        print_sheet(&json, night);
    begin_total(&json, run, night);
    json_number(&json, "groups", night->groups);
    json_number(&json, "works", night->works);
    json_number(&json, "records", night->records);
    json_number(&json, "findings", tally_sum(night->tally));
    print_counts(&json, "works_by_verdict", night->works_by, verdict_of_work);
    print_counts(&json, "records_by_verdict", night->records_by, verdict_of_record);
    print_tally(&json, night->tally);
    json_end_line(&json);
}

const struct report json_report = {print_run, print_file, print_night};

/* ---- the first work to look at, and no more */

/* Null says that there is none; of a file that is not judged nothing is said. */
static void print_first_work(struct json *json, const struct judged *judged) {
    const struct first *first = &judged->first;
    if (judged->outcome == OUTCOME_NONE_REJECTED)
        json_words(json, "first", NULL);
    if (judged->outcome != OUTCOME_REJECTED)
        return;
    json_object(json, "first");
    json_number(json, "line", first->record + 1);
    print_header(json, first->header, first->group, first->transaction);
    json_number(json, "works_before", first->works_before);
    json_end_object(json);
}

static void print_first(struct out *out, const struct run *run, const struct judged *judged) {
    struct json json = json_to(out);
    (void)run;
    begin_file(&json, judged);
    print_first_work(&json, judged);
    json_end_line(&json);
}

static void print_night_of_first(struct out *out, const struct run *run, const struct night *night) {
    struct json json = json_to(out);
    begin_total(&json, run, night);
    json_end_line(&json);
}

const struct report json_first = {print_run, print_first, print_night_of_first};
