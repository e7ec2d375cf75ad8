/* cwrcheck: says of CWR 2.2 files what a society would say of them, or puts the numbers of one in. */
#include <stdlib.h>

#include "html_page.h"
#include "judged.h"
#include "names.h"
#include "night.h"
#include "number.h"
#include "options.h"
#include "out.h"
#include "phrases.h"
#include "progress.h"
#include "reports.h"
#include "run.h"
#include "status.h"
#include "version.h"
#include "writing.h"

static const struct report *const reports[] = {
    [FORMAT_TEXT] = &text_report, [FORMAT_LINE] = &line_report, [FORMAT_JSON] = &json_report, [FORMAT_LIST] = &list_report};

/* With --first, which is no listing. */
static const struct report *const first_reports[] = {[FORMAT_TEXT] = &text_first, [FORMAT_LINE] = &line_first, [FORMAT_JSON] = &json_first};

static const struct report *report_of(const struct options *options) {
    return options->first ? first_reports[options->format] : reports[options->format];
}

/* What is made of all files of a run. */
struct session {
    const struct run *run;
    struct out *out;
    struct page *page; /* null: none is asked for */
    struct night night;
    struct progress progress;
};

/* What could not be checked is told on standard error too: a listing has no place for it, and a report may be read by nobody. */
static void tell(struct session *session, const struct judged *judged) {
    const struct run *run = session->run;
    progress_make_way(&session->progress);
    if (judged->outcome == OUTCOME_FAILED)
        complain("%s %s", judged->name, judged->why.words);
    report_of(run->options)->file(session->out, run, judged);
    if (session->page)
        page_add(session->page, run, judged);
}

static void check_one(struct session *session, const struct name *name) {
    struct judged judged;
    if (name->why)
        judge_failed(name->path, name->why, &judged);
    else
        judge(session->run, name->path, &judged);
    if (session->run->options->sheet && !sheet_take(&session->night.sheet, session->run, &judged)) {
        judged_free(&judged);
        judge_failed(name->path, "gets from the library one answer from the check and another for the sheet", &judged);
    }
    night_add(&session->night, &judged);
    tell(session, &judged);
    judged_free(&judged);
}

static enum status check_all(struct out *out, const struct run *run, const struct names *names, struct page *page) {
    const struct report *report = report_of(run->options);
    struct session session = {run, out, page, {.status = STATUS_ACCEPTED}, progress_begin(names->count)};
    if (report->begin)
        report->begin(out, run);
    for (size_t i = 0; i < names->count; i++) {
        progress_show(&session.progress, i);
        check_one(&session, &names->list[i]);
    }
    progress_end(&session.progress);
    /* For the same reason. */
    if (session.night.sheet.left_out > 0)
        complain("%s", sheet_lack(&session.night).words);
    if (report->end)
        report->end(out, run, &session.night);
    return !page || page_write(page, run, &session.night) ? session.night.status : STATUS_FAILED;
}

static bool may_write_page(const struct options *options, const struct names *names) {
    const char *path = options->html;
    for (size_t i = 0; i < names->count; i++)
        if (file_is_same(path, names->list[i].path))
            return complain("%s is a file that is to be checked; it is never written over", path);
    if (options->territories && file_is_same(path, options->territories))
        return complain("%s is the territory table; it is never written over", path);
    return file_may_write(path, NULL, options->force);
}

static enum status check_names(struct out *out, const struct run *run, const struct names *names) {
    const struct options *options = run->options;
    struct page page;
    if (options->list && names->count != 1) {
        complain("--list takes one file");
        return STATUS_FAILED;
    }
    if (!options->html)
        return check_all(out, run, names, NULL);
    if (!may_write_page(options, names) || !page_begin(&page))
        return STATUS_FAILED;
    enum status status = check_all(out, run, names, &page);
    page_free(&page);
    return status;
}

static enum status check(struct out *out, const struct options *options) {
    struct run run;
    struct names names;
    enum status status = STATUS_FAILED;
    if (!run_begin(&run, options))
        return STATUS_FAILED;
    if (names_gather(&names, options)) {
        status = check_names(out, &run, &names);
        names_free(&names);
    }
    run_end(&run);
    return status;
}

static enum status act(struct out *out, const struct options *options) {
    if (options->help) {
        say(out, "%s", options_usage);
        return STATUS_ACCEPTED;
    }
    if (options->version) {
        say(out, "cwrcheck %s\n", CWRCHECK_VERSION);
        return STATUS_ACCEPTED;
    }
    return options->number ? number(out, options->files[0], options->number, options->force) : check(out, options);
}

int main(int count, char **words) {
    struct options options;
    struct out out = {stdout, 0};
    const char **room = calloc((size_t)count + 1, sizeof *room);
    enum status status = STATUS_FAILED;
    if (!room)
        complain("not enough memory for the command line");
    else if (options_read(&options, count, words, room))
        status = act(&out, &options);
    free(room);
    return out_close(&out) ? (int)status : (int)STATUS_FAILED;
}
