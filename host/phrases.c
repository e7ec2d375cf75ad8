#include "phrases.h"

#include <stdio.h>
#include <string.h>

#include "cwr.h"
#include "version.h"

enum { SHOWN_TITLE = 60 };

void say_run(struct out *out, const struct run *run, say_name_so *say_folder) {
    say(out, "cwrcheck %s, tolerance %s, tables ", CWRCHECK_VERSION, percent_of(run->tolerance).words);
    say_folder(out, run->options->tables);
    for (size_t place = 0; place < TABLES; place++)
        say(out, "%s%zu %s", place == 0 ? ": " : ", ", table_count(&run->tables, place), table_plural(place));
    if (!run_has_territories(run))
        return;
    say(out, ", territories ");
    say_folder(out, run->options->territories);
    say(out, ": %zu", run->territories.count);
}

void say_work(struct out *out, struct bytes header, size_t group, size_t transaction) {
    say_text(out, text_field(header, 1, 3));
    say(out, ", work ");
    say_quoted(out, header_number(header), SHOWN_TITLE);
    say(out, ", title ");
    say_quoted(out, header_title(header), SHOWN_TITLE);
    say(out, " (group %zu, transaction %zu)", group, transaction);
}

void say_works(struct out *out, size_t works, const size_t by[VERDICTS]) {
    bool any = false;
    say_count(out, works, "work");
    for (size_t verdict = 0; verdict < VERDICTS; verdict++)
        if (by[verdict] > 0) {
            say(out, "%s%zu %s", any ? ", " : ": ", by[verdict], verdict_of_work(verdict));
            any = true;
        }
}

void say_verdict(struct out *out, const struct work *work) {
    say(out, "%s%s", verdict_of_work(work->verdict), work->falls_alone ? ", for nothing in itself" : "");
}

void say_fallen(struct out *out, const struct group *group) {
    say_count(out, group->works, "work");
    say(out, " rejected with it, %zu of them for nothing in itself", group->falling_alone);
}

void say_files(struct out *out, const struct night *night) {
    bool any = false;
    say_count(out, night->files, "file");
    for (size_t outcome = 0; outcome < OUTCOMES; outcome++)
        if (night->by_outcome[outcome] > 0) {
            say(out, "%s%zu %s", any ? ", " : ": ", night->by_outcome[outcome], outcome_of_files((enum outcome)outcome));
            any = true;
        }
}

static void say_refused(struct out *out, const struct refused *refused) {
    say(out, " by %u", refused->number);
    if (refused->has_line)
        say(out, " at line %zu", (size_t)refused->place + 1);
    say(out, ". %s", refused_reason(refused));
}

/* The outcome, and where the file is not judged, why not. */
static void say_outcome_alone(struct out *out, const struct judged *judged) {
    say(out, "%s", outcome_words(judged->outcome));
    if (judged->outcome == OUTCOME_FAILED) {
        say(out, ", for it ");
        say_name(out, judged->why.words);
    } else if (judged->outcome == OUTCOME_REFUSED) {
        say_refused(out, &judged->refused);
    }
}

void say_outcome(struct out *out, const struct judged *judged) {
    say_outcome_alone(out, judged);
    if (judged->outcome == OUTCOME_FAILED || judged->outcome == OUTCOME_REFUSED)
        return;
    say(out, ". ");
    say_works(out, judged->work_count, judged->works_by);
}

void say_first(struct out *out, const struct judged *judged) {
    const struct first *first = &judged->first;
    say_outcome_alone(out, judged);
    if (judged->outcome != OUTCOME_REJECTED)
        return;
    say(out, ". The first to look at: line %zu, ", first->record + 1);
    say_work(out, first->header, first->group, first->transaction);
    say(out, ", with ");
    say_count(out, first->works_before, "work");
    say(out, " before it");
}

void say_sums(struct out *out, const struct work *work, const struct found *found, size_t right) {
    const struct range *range = &found->words->ranges[right];
    uint64_t publishers = work->shares.publishers[right], writers = work->shares.writers[right];
    say(out, "%s: ", right_names[right]);
    if (range->of_publishers)
        say(out, "publishers %s", percent_of(publishers).words);
    if (range->of_publishers && range->of_writers)
        say(out, ", ");
    if (range->of_writers)
        say(out, "writers %s", percent_of(writers).words);
    if (range->of_publishers && range->of_writers)
        say(out, ", together %s", percent_of(publishers + writers).words);
}

void say_right(struct out *out, const struct run *run, const struct work *work, const struct found *found, size_t right) {
    say_sums(out, work, found, right);
    say(out, "; right: %s", range_within(&found->words->ranges[right], run->tolerance).words);
}

void say_territory(struct out *out, const struct run *run, const struct found *found, say_text_so *say_code) {
    for (size_t place = found->territory; place != NO_TERRITORY; place = territory_group(&run->territories, place)) {
        if (place != found->territory)
            say(out, " in ");
        say_code(out, territory_code(&run->territories, place));
    }
}

void say_collected(struct out *out, const struct found *found, size_t right) {
    say(out, "%s: together %s", right_names[right], percent_of(found->totals[right]).words);
}

struct range_words collected_right(const struct run *run) {
    return range_within(&collected_range, run->tolerance);
}

void say_party_shares(struct out *out, const struct party *party) {
    for (size_t right = 0; right < RIGHTS; right++)
        say(out, "%s%s %s", right == 0 ? "" : ", ", right_names[right], percent_of(party->shares[right]).words);
}

void say_culprit(struct out *out, const struct judged *judged, const struct found *found, say_text_so *say_type) {
    if (found->culprit == NO_RECORD)
        return;
    if (found->chain == NO_CHAIN)
        say(out, "it first holds with line %zu, ", found->culprit + 1);
    else
        say(out, "it holds of chain %02u, which begins with line %zu, ", found->chain, found->culprit + 1);
    say_type(out, text_field(judged->check.records[found->culprit], 1, 3));
}

void say_field(struct out *out, const struct found_field *field) {
    struct bytes text = field_shown(field);
    say(out, "%s (start %zu): ", field->field->name, field->start);
    if (text.length == 0)
        say(out, "blank");
    else
        say_quoted(out, text, text.length);
    if (field->field->right)
        say(out, "; right: %s", field->field->right);
}

void say_sentence(struct out *out, const struct found *found) {
    say(out, "%s", finding_sentence(found->words));
    if (found->words && found->words->put)
        say(out, " The society's default: %s.", found->words->put);
}

void say_left_out(struct out *out, const struct judged *judged) {
    say_count(out, judged->findings_left_out, "more finding");
    if (judged->works_left_out > 0) {
        say(out, " and ");
        say_count(out, judged->works_left_out, "work");
        say(out, " rejected with the group for nothing in itself");
    }
    say(out, " left out; --most N or --most all tells more");
}

void say_taken(struct out *out, const struct sheet *sheet) {
    say_count(out, (size_t)cwr_sheet_files(sheet->bytes), "file");
    say(out, " taken, %zu of them refused", (size_t)cwr_sheet_refused(sheet->bytes));
}

const char sheet_shares_words[] =
    "A transaction misses where its shares of a right come to neither 0.00% nor exactly 100.00%, whatever the tolerance; the sum has a "
    "minus where it is short.";

const char sheet_territories_words[] =
    "It is made without the territory table: findings 47 and 48 are not in it, nor any verdict that comes from them.";

static void add_lack(struct lack *lack, size_t files, const char *what) {
    size_t length = strlen(lack->words);
    snprintf(lack->words + length, sizeof lack->words - length, "%s%zu file%s %s %s not in it.", length > 0 ? " " : "", files,
             files == 1 ? "" : "s", what, files == 1 ? "is" : "are");
}

struct lack sheet_lack(const struct night *night) {
    struct lack lack = {""};
    if (night->sheet.left_out > 0) {
        snprintf(lack.words, sizeof lack.words, "%s", refusal_words(SHEET_REFUSED)->sentence);
        add_lack(&lack, night->sheet.left_out, "after them");
    }
    if (night->by_outcome[OUTCOME_FAILED] > 0)
        add_lack(&lack, night->by_outcome[OUTCOME_FAILED], "could not be checked and");
    return lack;
}
