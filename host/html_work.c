#include "html_work.h"

#include "html.h"
#include "html_finding.h"
#include "phrases.h"

enum { FULL = 10000 };

/* ---- one finding */

static void add_field(struct out *out, const struct found_field *field) {
    struct bytes text = field_shown(field);
    say(out, "<dt>%s <span class=\"quiet\">(start %zu)</span></dt><dd>", field->field->name, field->start);
    if (text.length == 0) {
        say(out, "blank");
    } else {
        say(out, "<code>");
        html_text(out, text);
        say(out, "</code>");
    }
    if (field->field->right)
        say(out, " <span class=\"right\">right: %s</span>", field->field->right);
    say(out, "</dd>\n");
}

static void add_right(struct out *out, const struct run *run, const struct work *work, const struct found *found, size_t right) {
    say(out, "<dt>shares</dt><dd>");
    say_sums(out, work, found, right);
    say(out, " <span class=\"right\">right: %s</span></dd>\n", range_within(&found->words->ranges[right], run->tolerance).words);
}

static void add_party(struct out *out, const struct judged *judged, const struct party *party) {
    struct bytes record = judged->check.records[party->record];
    say(out, "<dt>line %zu, ", party->record + 1);
    html_text(out, text_field(record, 1, 3));
    say(out, "</dt><dd>");
    html_text(out, party_name(record));
    say(out, " <span class=\"number\">");
    say_party_shares(out, party);
    say(out, "</span></dd>\n");
}

/* What is collected in the first territory that is over, and by whom. */
static void add_territory(struct out *out, const struct run *run, const struct judged *judged, const struct found *found) {
    say(out, "<dt>territory</dt><dd>");
    say_territory(out, run, found, html_text);
    say(out, "</dd>\n");
    for (size_t right = 0; right < RIGHTS; right++)
        if (found->rights[right]) {
            say(out, "<dt>collected there</dt><dd>");
            say_collected(out, found, right);
            say(out, " <span class=\"right\">right: %s</span></dd>\n", collected_right(run).words);
        }
    for (size_t i = 0; i < found->party_count; i++)
        add_party(out, judged, &judged->parties[found->parties + i]);
}

static void add_found(struct out *out, const struct run *run, const struct judged *judged, const struct work *work,
                      const struct found *found) {
    const struct finding *words = found->words;
    say(out, "<div class=\"finding\" data-level=\"%zu\"><p>", words ? words->level : VERDICTS - 1);
    html_level(out, words);
    say(out, " line %zu, ", found->record + 1);
    html_text(out, text_field(judged->check.records[found->record], 1, 3));
    say(out, ": ");
    say_sentence(out, found);
    say(out, " ");
    html_number(out, found->number, words);
    say(out, "</p>\n<dl>\n");
    for (size_t i = 0; i < found->field_count; i++)
        add_field(out, &judged->fields[found->fields + i]);
    for (size_t right = 0; words && words->ranges && right < RIGHTS; right++)
        if (found->rights[right])
            add_right(out, run, work, found, right);
    if (found->territory != NO_TERRITORY)
        add_territory(out, run, judged, found);
    if (found->culprit != NO_RECORD) {
        say(out, "<dt>where</dt><dd>");
        say_culprit(out, judged, found, html_text);
        say(out, "</dd>\n");
    }
    say(out, "</dl></div>\n");
}

/* ---- one work */

/* A bar is as wide as all of a right, or as the sum where that is more; then it is marked. */
static void add_bar(struct out *out, const struct shares *shares, size_t right) {
    uint64_t publishers = shares->publishers[right], writers = shares->writers[right], sum = publishers + writers;
    uint64_t whole = sum > FULL ? sum : FULL;
    say(out, "<span>%s</span><span class=\"bar%s\" role=\"img\" aria-label=\"%s\">", right_names[right], sum > FULL ? " over" : "",
        percent_of(sum).words);
    say(out, "<i class=\"p\" style=\"width:%s\"></i>", percent_of(publishers * FULL / whole).words);
    say(out, "<i class=\"w\" style=\"width:%s\"></i></span>", percent_of(writers * FULL / whole).words);
    say(out, "<span class=\"sum\">publishers %s, writers %s, together %s</span>\n", percent_of(publishers).words, percent_of(writers).words,
        percent_of(sum).words);
}

/* The highest level of its findings; a work that falls with its group has that of the group. */
static size_t work_level(const struct judged *judged, const struct work *work) {
    size_t level = work->verdict;
    for (size_t i = work->found; i < work->found + work->found_count; i++) {
        const struct finding *words = judged->found[i].words;
        size_t of = words ? words->level : VERDICTS - 1;
        level = of > level ? of : level;
    }
    return level;
}

void html_work(struct out *out, const struct run *run, const struct judged *judged, const struct work *work) {
    size_t level = work_level(judged, work);
    say(out, "<article class=\"work\" data-level=\"%zu\" data-file=\"", level);
    html_name(out, judged->name);
    say(out, "\">\n<div class=\"head\"><h3>");
    html_text(out, header_title(work_header(judged, work)));
    say(out, "</h3> <span class=\"mark %s\">", level > 0 ? level_name(level) : "s0");
    say_verdict(out, work);
    say(out, "</span></div>\n<p class=\"quiet\">work <code>");
    html_text(out, header_number(work_header(judged, work)));
    say(out, "</code>, ");
    html_text(out, text_field(work_header(judged, work), 1, 3));
    say(out, ", lines %zu to %zu, group %zu, transaction %zu</p>\n", work->header + 1, work->end, work->group, work->transaction);
    say(out, "<div class=\"shares\">\n");
    for (size_t right = 0; right < RIGHTS; right++)
        add_bar(out, &work->shares, right);
    say(out, "</div>\n");
    for (size_t i = work->found; i < work->found + work->found_count; i++)
        add_found(out, run, judged, work, &judged->found[i]);
    say(out, "</article>\n");
}
