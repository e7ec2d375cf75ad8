/* What the desk reads. */
#include "cwr.h"
#include "phrases.h"
#include "reports.h"

enum { SHOWN_LINE = 72 };

/* ---- one finding */

static void say_beneath(struct out *out) {
    say(out, "      ");
}

static void print_party(struct out *out, const struct judged *judged, const struct party *party) {
    struct bytes record = judged->check.records[party->record];
    say_beneath(out);
    say(out, "line %zu, ", party->record + 1);
    say_text(out, text_field(record, 1, 3));
    say(out, ", ");
    say_quoted(out, party_name(record), SHOWN_LINE);
    say(out, ": ");
    say_party_shares(out, party);
    say(out, "\n");
}

/* What is collected in the first territory that is over, and by whom. */
static void print_territory(struct out *out, const struct run *run, const struct judged *judged, const struct found *found) {
    say_beneath(out);
    say(out, "territory ");
    say_territory(out, run, found, say_text);
    say(out, "\n");
    for (size_t right = 0; right < RIGHTS; right++)
        if (found->rights[right]) {
            say_beneath(out);
            say_collected(out, found, right);
            say(out, "; right: %s\n", collected_right(run).words);
        }
    for (size_t i = 0; i < found->party_count; i++)
        print_party(out, judged, &judged->parties[found->parties + i]);
}

static void print_found(struct out *out, const struct run *run, const struct judged *judged, const struct work *work,
                        const struct found *found) {
    const struct finding *words = found->words;
    say(out, "    finding %u (%s, %s): ", found->number, words ? level_name(words->level) : "?", words ? words->edit : "?");
    say_sentence(out, found);
    say(out, "\n");
    for (size_t i = 0; i < found->field_count; i++) {
        say_beneath(out);
        say_field(out, &judged->fields[found->fields + i]);
        say(out, "\n");
    }
    for (size_t right = 0; words && words->ranges && right < RIGHTS; right++)
        if (found->rights[right]) {
            say_beneath(out);
            say_right(out, run, work, found, right);
            say(out, "\n");
        }
    if (found->territory != NO_TERRITORY)
        print_territory(out, run, judged, found);
    if (found->culprit != NO_RECORD) {
        say_beneath(out);
        say_culprit(out, judged, found, say_text);
        say(out, "\n");
    }
}

/* ---- one work */

static void print_record(struct out *out, const struct judged *judged, size_t record) {
    say(out, "  line %zu, ", record + 1);
    say_text(out, text_field(judged->check.records[record], 1, 3));
    say(out, ": %s\n", verdict_of_record(judged->check.verdicts[record]));
}

static void print_work(struct out *out, const struct run *run, const struct judged *judged, const struct work *work) {
    say(out, "\nLine %zu, ", work->header + 1);
    say_work(out, work_header(judged, work), work->group, work->transaction);
    say(out, ": ");
    say_verdict(out, work);
    say(out, "\n");
    size_t last = NO_RECORD;
    for (size_t i = work->found; i < work->found + work->found_count; i++) {
        if (judged->found[i].record != last)
            print_record(out, judged, judged->found[i].record);
        last = judged->found[i].record;
        print_found(out, run, judged, work, &judged->found[i]);
    }
}

/* ---- one file */

static void print_refused(struct out *out, const struct refused *refused) {
    if (refused_reason(refused) != refused->sentence)
        say(out, "  %s\n", refused->sentence);
    if (refused->ends)
        say(out, "  The file ends before line %zu.\n", (size_t)refused->place + 1);
    if (!refused->has_line || refused->ends)
        return;
    say(out, "  Line %zu, of %zu characters:\n  ", (size_t)refused->place + 1, refused->text.length);
    say_quoted(out, refused->text, SHOWN_LINE);
    say(out, "\n");
}

static void print_group(struct out *out, const struct judged *judged, const struct group *group, size_t number) {
    say(out, "\nLine %zu, GRH, group %zu: rejected as a whole, since finding 0 holds in it; ", group->header + 1, number);
    say_fallen(out, group);
    say(out, "; it was opened for ");
    say_quoted(out, text_field(judged->check.records[group->header], 4, 3), 3);
    say(out, "\n");
}

/* Groups and works in the order of the file. */
static void print_works(struct out *out, const struct run *run, const struct judged *judged) {
    size_t work = 0;
    for (size_t group = 0; group < judged->group_count; group++) {
        if (judged->groups[group].rejected)
            print_group(out, judged, &judged->groups[group], group + 1);
        for (; work < judged->work_count && judged->works[work].group <= group + 1; work++)
            if (judged->works[work].told)
                print_work(out, run, judged, &judged->works[work]);
    }
    for (; work < judged->work_count; work++)
        if (judged->works[work].told)
            print_work(out, run, judged, &judged->works[work]);
}

static void print_file(struct out *out, const struct run *run, const struct judged *judged) {
    if (!run->options->summary)
        say(out, "\n");
    say_name(out, judged->name);
    say(out, ": ");
    say_outcome(out, judged);
    say(out, "\n");
    if (run->options->summary)
        return;
    if (judged->outcome == OUTCOME_REFUSED)
        print_refused(out, &judged->refused);
    print_works(out, run, judged);
    if (judged->findings_left_out > 0 || judged->works_left_out > 0) {
        say(out, "\n");
        say_left_out(out, judged);
        say(out, "\n");
    }
}

/* ---- the night */

static void print_tally(struct out *out, const size_t tally[FINDINGS]) {
    for (uint32_t number = 0; number < FINDINGS; number++) {
        const struct finding *words = finding_words(number);
        if (tally[number] > 0)
            say(out, "%9zu  finding %u (%s, %s): %s\n", tally[number], number, words ? level_name(words->level) : "?",
                words ? words->edit : "?", finding_sentence(words));
    }
}

/* ---- its sheet */

static void print_rights(struct out *out, const uint8_t *sheet) {
    say(out, "\n%s\n  right  transactions that miss  largest shortfall  largest excess  sum of differences\n", sheet_shares_words);
    for (size_t right = 0; right < RIGHTS; right++)
        say(out, "     %s  %22zu  %17s  %14s  %18s\n", right_names[right], (size_t)cwr_sheet_missing(sheet, right),
            percent_of(cwr_sheet_shortfall(sheet, right)).words, percent_of(cwr_sheet_excess(sheet, right)).words,
            signed_percent_of(cwr_sheet_sum(sheet, right)).words);
}

static void print_records(struct out *out, const struct sheet *sheet) {
    size_t tally[FINDINGS], by[VERDICTS];
    sheet_tally(sheet, tally);
    sheet_records_by(sheet, by);
    say(out, "\nRecords by finding%s\n", tally_sum(tally) == 0 ? ": no record has one" : "");
    print_tally(out, tally);
    say(out, "\nRecords by verdict\n");
    for (size_t verdict = 0; verdict < VERDICTS; verdict++)
        say(out, "%9zu  %s\n", by[verdict], verdict_of_record(verdict));
    say(out, "%9zu  in all\n", records_sum(by));
}

static void print_sheet(struct out *out, const struct run *run, const struct night *night) {
    struct lack lack = sheet_lack(night);
    say(out, "\nCatalogue sheet: ");
    say_taken(out, &night->sheet);
    say(out, "\n");
    if (lack.words[0] != '\0')
        say(out, "%s\n", lack.words);
    if (run_has_territories(run))
        say(out, "%s\n", sheet_territories_words);
    print_rights(out, night->sheet.bytes);
    print_records(out, &night->sheet);
}

/* ---- its totals */

static void print_files(struct out *out, const struct night *night) {
    say(out, "\nTotal: ");
    say_files(out, night);
    say(out, "\n");
}

static void print_night(struct out *out, const struct run *run, const struct night *night) {
    print_files(out, night);
    say_works(out, night->works, night->works_by);
    say(out, "\n");
    say_count(out, night->records, "record");
    for (size_t verdict = 0; verdict < VERDICTS; verdict++)
        say(out, "%s%zu %s", verdict == 0 ? ": " : ", ", night->records_by[verdict], verdict_of_record(verdict));
    say(out, "\n");
    say_count(out, tally_sum(night->tally), "finding");
    if (run->options->level > 1)
        say(out, " of level %s and above", level_name(run->options->level));
    say(out, "\n");
    if (run->options->summary)
        print_tally(out, night->tally);
    if (run->options->sheet)
        print_sheet(out, run, night);
}

static void print_run(struct out *out, const struct run *run) {
    say_run(out, run, say_name);
    say(out, "\n");
    if (run->options->summary)
        say(out, "\n");
}

const struct report text_report = {print_run, print_file, print_night};

/* ---- the first work to look at, and no more */

static void print_run_of_first(struct out *out, const struct run *run) {
    say_run(out, run, say_name);
    say(out, "\nOf each file the first work that is rejected for something in itself; defaults and records left out are not looked for.\n");
    say(out, "\n");
}

static void print_first(struct out *out, const struct run *run, const struct judged *judged) {
    (void)run;
    say_name(out, judged->name);
    say(out, ": ");
    say_first(out, judged);
    say(out, "\n");
}

static void print_night_of_first(struct out *out, const struct run *run, const struct night *night) {
    (void)run;
    print_files(out, night);
}

const struct report text_first = {print_run_of_first, print_first, print_night_of_first};
