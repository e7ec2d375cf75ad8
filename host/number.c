#include "number.h"

#include <stdlib.h>

#include "check.h"
#include "cwr.h"
#include "judged.h"
#include "phrases.h"
#include "reading.h"
#include "refused.h"
#include "writing.h"

static void say_numbered(struct out *out, const char *to, struct bytes file, size_t records) {
    struct counts counts = {0, 0};
    struct bytes line;
    for (size_t i = 0; i < records && text_next(&file, &line); i++)
        count_record(&counts, line);
    say_name(out, to);
    say(out, ": numbered, ");
    say_count(out, counts.groups, "group");
    say(out, ", ");
    say_count(out, counts.transactions, "work");
    say(out, ", ");
    say_count(out, records, "record");
    say(out, "\n");
}

static enum status refuse(struct out *out, const char *from, struct bytes file, uint64_t answer) {
    struct judged judged = {.name = file_title(from), .outcome = OUTCOME_REFUSED};
    refused_explain(&judged.refused, file, answer, false);
    say_name(out, judged.name);
    say(out, ": ");
    say_outcome(out, &judged);
    say(out, "\n");
    refused_free(&judged.refused);
    return STATUS_REFUSED;
}

static enum status number_into(struct out *out, const char *from, const char *to, bool replace, const struct content *content,
                               uint8_t *numbered) {
    struct bytes file = {content->bytes, content->length}, result = {numbered, content->length};
    uint64_t answer = cwr_number(file.at, file.length, numbered, file.length);
    if (cwr_refusal(answer) != 0)
        return refuse(out, from, file, answer);
    if (!file_write(to, result, replace))
        return STATUS_FAILED;
    say_numbered(out, to, result, cwr_place(answer));
    return STATUS_ACCEPTED;
}

enum status number(struct out *out, const char *from, const char *to, bool replace) {
    struct content content;
    struct why why;
    if (!file_read(from, CWR_MOST_BYTES, &content, &why)) {
        complain("%s %s", file_title(from), why.words);
        return STATUS_FAILED;
    }
    enum status status = STATUS_FAILED;
    /* Never of length 0: no pointer that the library gets may be null. */
    uint8_t *numbered = malloc(content.length + 1);
    if (!numbered)
        complain("not enough memory for %zu bytes", content.length + 1);
    else if (file_may_write(to, &content.identity, replace))
        status = number_into(out, from, to, replace, &content, numbered);
    free(numbered);
    file_free(&content);
    return status;
}
