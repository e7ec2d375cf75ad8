#include "html_sheet.h"

#include "cwr.h"
#include "html_finding.h"
#include "phrases.h"

static void open_table(struct out *out, const char *heads) {
    say(out, "<table class=\"sheet\"><thead><tr>%s</tr></thead>\n<tbody>\n", heads);
}

static void close_table(struct out *out) {
    say(out, "</tbody></table>\n");
}

static void add_count(struct out *out, size_t count) {
    say(out, "<td class=\"count\">%zu</td>", count);
}

static void add_percent(struct out *out, struct percent percent) {
    say(out, "<td class=\"count\">%s</td>", percent.words);
}

static void add_rights(struct out *out, const uint8_t *sheet) {
    say(out, "<h3>Shares</h3>\n<p class=\"quiet\">%s</p>\n", sheet_shares_words);
    open_table(out, "<th>right</th><th>transactions that miss</th><th>largest shortfall</th><th>largest excess</th>"
                    "<th>sum of differences</th>");
    for (size_t right = 0; right < RIGHTS; right++) {
        say(out, "<tr><td>%s</td>", right_names[right]);
        add_count(out, (size_t)cwr_sheet_missing(sheet, right));
        add_percent(out, percent_of(cwr_sheet_shortfall(sheet, right)));
        add_percent(out, percent_of(cwr_sheet_excess(sheet, right)));
        add_percent(out, signed_percent_of(cwr_sheet_sum(sheet, right)));
        say(out, "</tr>\n");
    }
    close_table(out);
}

static void add_finding(struct out *out, uint32_t number, size_t records) {
    const struct finding *words = finding_words(number);
    say(out, "<tr>");
    add_count(out, records);
    say(out, "<td>");
    html_level(out, words);
    say(out, "</td><td>%s ", finding_sentence(words));
    html_number(out, number, words);
    say(out, "</td></tr>\n");
}

static void add_findings(struct out *out, const struct sheet *sheet) {
    size_t tally[FINDINGS];
    sheet_tally(sheet, tally);
    say(out, "<h3>Records by finding</h3>\n");
    if (tally_sum(tally) == 0) {
        say(out, "<p>No record has one.</p>\n");
        return;
    }
    open_table(out, "<th>records</th><th>level</th><th>finding</th>");
    for (uint32_t number = 0; number < FINDINGS; number++)
        if (tally[number] > 0)
            add_finding(out, number, tally[number]);
    close_table(out);
}

static void add_verdict(struct out *out, size_t records, const char *words) {
    say(out, "<tr>");
    add_count(out, records);
    say(out, "<td>%s</td></tr>\n", words);
}

static void add_verdicts(struct out *out, const struct sheet *sheet) {
    size_t by[VERDICTS];
    sheet_records_by(sheet, by);
    say(out, "<h3>Records by verdict</h3>\n");
    open_table(out, "<th>records</th><th>verdict</th>");
    for (size_t verdict = 0; verdict < VERDICTS; verdict++)
        add_verdict(out, by[verdict], verdict_of_record(verdict));
    add_verdict(out, records_sum(by), "in all");
    close_table(out);
}

void html_sheet(struct out *out, const struct run *run, const struct night *night) {
    struct lack lack = sheet_lack(night);
    say(out, "<section id=\"sheet\"><h2>Catalogue sheet</h2>\n<p>");
    say_taken(out, &night->sheet);
    say(out, "</p>\n");
    if (lack.words[0] != '\0')
        say(out, "<p><span class=\"mark s%d\">not all files</span> %s</p>\n", (int)STATUS_FAILED, lack.words);
    if (run_has_territories(run))
        say(out, "<p>%s</p>\n", sheet_territories_words);
    add_rights(out, night->sheet.bytes);
    add_findings(out, &night->sheet);
    add_verdicts(out, &night->sheet);
    say(out, "</section>\n");
}
