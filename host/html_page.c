#include "html_page.h"

#include <stdlib.h>

#include "cwr.h"
#include "html.h"
#include "html_parts.h"
#include "html_sheet.h"
#include "html_work.h"
#include "phrases.h"
#include "writing.h"

/* ---- parts */

static bool part_begin(struct part *part) {
    part->out = (struct out){open_memstream(&part->bytes, &part->length), 0};
    return part->out.to || complain("not enough memory for the page");
}

static bool part_end(struct part *part) {
    bool done = fclose(part->out.to) == 0 && part->out.error == 0;
    part->out.to = NULL;
    return done || complain("not enough memory for the page");
}

static void part_free(struct part *part) {
    if (part->out.to)
        fclose(part->out.to);
    free(part->bytes);
}

bool page_begin(struct page *page) {
    *page = (struct page){.file_count = 0};
    if (part_begin(&page->files) && part_begin(&page->works))
        return true;
    page_free(page);
    return false;
}

void page_free(struct page *page) {
    part_free(&page->files);
    part_free(&page->works);
}

/* ---- one file */

static void add_outcome(struct out *out, const struct judged *judged) {
    const struct refused *refused = &judged->refused;
    say(out, "<span class=\"mark s%d\">%s</span> ", (int)outcome_status(judged->outcome), outcome_words(judged->outcome));
    if (judged->outcome == OUTCOME_REFUSED) {
        say(out, "by %u", refused->number);
        if (refused->has_line)
            say(out, " at line %zu", (size_t)refused->place + 1);
        say(out, ": ");
        html_name(out, refused_reason(refused));
    }
    if (judged->outcome == OUTCOME_FAILED) {
        say(out, "it ");
        html_name(out, judged->why.words);
    }
}

static void add_count(struct out *out, const char *of, size_t count) {
    say(out, "<td class=\"count\" data-of=\"%s\">%zu</td>", of, count);
}

static bool has_section(const struct judged *judged) {
    return judged->works_told > 0 || judged->findings_left_out > 0 || judged->works_left_out > 0;
}

/* In the table: name, with a link to its section; outcome; works, rejected works, findings. */
static void add_row(struct out *out, const struct judged *judged, size_t number) {
    bool checked = judged->outcome < OUTCOME_REFUSED, linked = has_section(judged);
    say(out, "<tr><td>");
    if (linked)
        say(out, "<a href=\"#file%zu\">", number);
    html_name(out, judged->name);
    say(out, "%s</td><td>", linked ? "</a>" : "");
    add_outcome(out, judged);
    say(out, "</td>");
    if (checked) {
        add_count(out, "works", judged->work_count);
        add_count(out, "rejected", judged->works_by[CWR_TRANSACTION_REJECTED] + judged->works_by[CWR_GROUP_REJECTED]);
        add_count(out, "findings", tally_sum(judged->tally));
    } else {
        say(out, "<td></td><td></td><td></td>");
    }
    say(out, "</tr>\n");
}

static void add_group(struct out *out, const struct judged *judged, size_t group) {
    say(out, "<p>Line %zu: group %zu is rejected as a whole, since finding 0 holds in it; ", judged->groups[group].header + 1, group + 1);
    say_fallen(out, &judged->groups[group]);
    say(out, ".</p>\n");
}

void page_add(struct page *page, const struct run *run, const struct judged *judged) {
    struct out *out = &page->works.out;
    page->file_count++;
    add_row(&page->files.out, judged, page->file_count);
    if (!has_section(judged))
        return;
    say(out, "<section class=\"file\" id=\"file%zu\"><h2>", page->file_count);
    html_name(out, judged->name);
    say(out, "</h2>\n");
    for (size_t i = 0; i < judged->group_count; i++)
        if (judged->groups[i].rejected)
            add_group(out, judged, i);
    for (size_t i = 0; i < judged->work_count; i++)
        if (judged->works[i].told)
            html_work(out, run, judged, &judged->works[i]);
    if (judged->findings_left_out > 0 || judged->works_left_out > 0) {
        say(out, "<p>");
        say_left_out(out, judged);
        say(out, ".</p>\n");
    }
    say(out, "</section>\n");
}

/* ---- the page */

static void add_all(struct out *out, const char *const *parts) {
    for (; *parts; parts++)
        say(out, "%s", *parts);
}

static void add_head(struct out *out) {
    say(out, "<!DOCTYPE html>\n<html lang=\"en\">\n<head>\n<meta charset=\"utf-8\"/>\n"
             "<meta name=\"viewport\" content=\"width=device-width, initial-scale=1\"/>\n<title>cwrcheck</title>\n<style>\n");
    add_all(out, html_style);
    say(out, "</style>\n</head>\n<body>\n<main>\n");
}

static void add_files(struct out *out, const struct page *page) {
    say(out, "<h2>Files</h2>\n<table class=\"files\"><thead><tr><th>file</th><th>outcome</th><th>works</th><th>rejected</th>"
             "<th>findings</th></tr></thead>\n<tbody>\n%s</tbody></table>\n",
        page->files.bytes);
}

static void add_works(struct out *out, const struct page *page) {
    say(out, "<h2>Works to look at</h2>\n");
    if (page->works.length == 0) {
        say(out, "<p>There is none.</p>\n");
        return;
    }
    say(out, "<div id=\"tools\"><input id=\"search\" type=\"search\" placeholder=\"Search: title, work number, words, value, file\" "
             "aria-label=\"Search\"/>\n<select id=\"level\" aria-label=\"Level\">"
             "<option value=\"0\">all levels</option><option value=\"2\">RR and above</option>"
             "<option value=\"3\">TR and above: rejected</option><option value=\"4\">GR: rejected with the group</option></select>\n"
             "<span id=\"shown\" class=\"quiet\"></span></div>\n"
             "<p class=\"quiet key\">FR: a field gets a default. RR: a record is left out. TR: the work is rejected. GR: its group is rejected."
             " Shares:<i class=\"p\"></i>publishers<i class=\"w\"></i>writers</p>\n<p id=\"none\" hidden=\"hidden\">No work fits.</p>\n");
    say(out, "%s", page->works.bytes);
    say(out, "<script>\n//<![CDATA[\n");
    add_all(out, html_script);
    say(out, "//]]>\n</script>\n");
}

static void add_page(struct out *out, const struct page *page, const struct run *run, const struct night *night) {
    add_head(out);
    say(out, "<h1>CWR files checked</h1>\n<p>");
    say_files(out, night);
    say(out, "</p>\n<p>");
    say_works(out, night->works, night->works_by);
    say(out, "</p>\n<p class=\"quiet\">");
    say_run(out, run, html_name);
    say(out, "</p>\n");
    if (run->options->sheet)
        html_sheet(out, run, night);
    add_files(out, page);
    add_works(out, page);
    say(out, "</main>\n</body>\n</html>\n");
}

bool page_write(struct page *page, const struct run *run, const struct night *night) {
    struct part whole = {.bytes = NULL};
    if (!part_end(&page->files) || !part_end(&page->works) || !part_begin(&whole))
        return false;
    add_page(&whole.out, page, run, night);
    bool done = part_end(&whole);
    if (done)
        done = file_write(run->options->html, (struct bytes){(const uint8_t *)whole.bytes, whole.length}, run->options->force);
    part_free(&whole);
    return done;
}
