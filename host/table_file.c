#include "table_file.h"

#include <string.h>

/* Far more than 1,024 codes with a remark to each need. */
enum { MOST_TABLE_BYTES = 1048576, SHOWN_BYTES = 20 };

bool table_file_read(const char *path, struct content *content) {
    struct why why;
    if (!file_read(path, MOST_TABLE_BYTES, content, &why))
        return complain("%s %s", path, why.words);
    if (content->length <= MOST_TABLE_BYTES)
        return true;
    file_free(content);
    return complain("%s is too long for a table of codes", path);
}

/* Some editors begin a file with this mark of its encoding. */
static struct bytes without_mark(struct bytes text) {
    static const uint8_t mark[3] = {0xef, 0xbb, 0xbf};
    if (text.length >= sizeof mark && memcmp(text.at, mark, sizeof mark) == 0)
        return (struct bytes){text.at + sizeof mark, text.length - sizeof mark};
    return text;
}

struct table_lines table_lines_of(const struct content *content) {
    return (struct table_lines){without_mark((struct bytes){content->bytes, content->length}), 0};
}

/* Takes the next line off the text, without LF or CR LF; false where nothing is left. */
static bool next_line(struct bytes *text, struct bytes *line) {
    if (text->length == 0)
        return false;
    const uint8_t *end = memchr(text->at, '\n', text->length);
    size_t length = end ? (size_t)(end - text->at) : text->length;
    *line = (struct bytes){text->at, length};
    if (line->length > 0 && line->at[line->length - 1] == '\r')
        line->length--;
    size_t taken = end ? length + 1 : length;
    text->at += taken;
    text->length -= taken;
    return true;
}

bool table_lines_next(struct table_lines *lines, struct bytes *line) {
    while (next_line(&lines->left, line)) {
        lines->number++;
        if (text_trimmed(*line).length > 0 && line->at[0] != '#')
            return true;
    }
    return false;
}

struct out table_line_wrong(const char *path, size_t number) {
    struct out out = {stderr, 0};
    say(&out, "cwrcheck: ");
    say_name(&out, path);
    say(&out, ", line %zu: ", number);
    return out;
}

bool table_code_wrong(const char *path, size_t number, struct bytes code, const char *kind, size_t width) {
    struct out out = table_line_wrong(path, number);
    say_quoted(&out, code, SHOWN_BYTES);
    say(&out, " has %zu characters; a %s code has %zu\n", code.length, kind, width);
    return false;
}

void table_warn_empty(const char *path, const char *kind) {
    complain("warning: %s has no code, so every %s code that is looked up will be unknown", path, kind);
}
