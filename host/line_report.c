/* A line a finding, as compilers print, for editors and for searching. */
#include "phrases.h"
#include "reports.h"

static void say_place(struct out *out, const struct judged *judged, size_t line, size_t column) {
    say_name(out, judged->name);
    say(out, ":%zu:%zu: ", line, column);
}

/* The territory, and the rights that are over there; who collects them is too much for a line. */
static void print_territory(struct out *out, const struct run *run, const struct found *found) {
    say(out, " | territory ");
    say_territory(out, run, found, say_text);
    for (size_t right = 0; right < RIGHTS; right++)
        if (found->rights[right]) {
            say(out, " | ");
            say_collected(out, found, right);
            say(out, "; right: %s", collected_right(run).words);
        }
}

static void print_found(struct out *out, const struct run *run, const struct judged *judged, const struct work *work,
                        const struct found *found) {
    say_place(out, judged, found->record + 1, found_column(judged, found));
    const struct finding *words = found->words;
    say(out, "%s: finding %u (%s): ", words ? level_name(words->level) : "?", found->number, words ? words->edit : "?");
    say_sentence(out, found);
    for (size_t i = 0; i < found->field_count; i++) {
        say(out, " | ");
        say_field(out, &judged->fields[found->fields + i]);
    }
    for (size_t right = 0; words && words->ranges && right < RIGHTS; right++)
        if (found->rights[right]) {
            say(out, " | ");
            say_right(out, run, work, found, right);
        }
    if (found->territory != NO_TERRITORY)
        print_territory(out, run, found);
    if (found->culprit != NO_RECORD) {
        say(out, " | ");
        say_culprit(out, judged, found, say_text);
    }
    say(out, "\n");
}

static void print_work(struct out *out, const struct run *run, const struct judged *judged, const struct work *work) {
    for (size_t i = work->found; i < work->found + work->found_count; i++)
        print_found(out, run, judged, work, &judged->found[i]);
    if (work->told && work->found_count == 0) {
        say_place(out, judged, work->header + 1, 1);
        say(out, "GR: ");
        say_verdict(out, work);
        say(out, "\n");
    }
}

/* Of a file that is not judged, why not. */
static void print_unjudged(struct out *out, const struct judged *judged) {
    const struct refused *refused = &judged->refused;
    if (judged->outcome != OUTCOME_REFUSED && judged->outcome != OUTCOME_FAILED)
        return;
    say_place(out, judged, refused->has_line ? (size_t)refused->place + 1 : 1, refused->has_line ? refused->column : 1);
    say_outcome(out, judged);
    say(out, "\n");
}

static void print_file(struct out *out, const struct run *run, const struct judged *judged) {
    print_unjudged(out, judged);
    for (size_t i = 0; i < judged->work_count; i++)
        print_work(out, run, judged, &judged->works[i]);
    if (judged->findings_left_out > 0 || judged->works_left_out > 0) {
        say_place(out, judged, judged->check.count, 1);
        say_left_out(out, judged);
        say(out, "\n");
    }
}

const struct report line_report = {NULL, print_file, NULL};

static void print_first(struct out *out, const struct run *run, const struct judged *judged) {
    (void)run;
    print_unjudged(out, judged);
    if (judged->outcome != OUTCOME_REJECTED)
        return;
    say_place(out, judged, judged->first.record + 1, 1);
    say_first(out, judged);
    say(out, "\n");
}

const struct report line_first = {NULL, print_first, NULL};
