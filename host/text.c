#include "text.h"

#include <string.h>

bool text_is(struct bytes text, const char *three) {
    return text.length >= 3 && memcmp(text.at, three, 3) == 0;
}

struct bytes text_field(struct bytes record, size_t start, size_t size) {
    size_t before = start - 1 < record.length ? start - 1 : record.length;
    size_t left = record.length - before;
    return (struct bytes){record.at + before, size < left ? size : left};
}

struct bytes text_trimmed(struct bytes text) {
    while (text.length > 0 && text.at[text.length - 1] == ' ')
        text.length--;
    while (text.length > 0 && text.at[0] == ' ') {
        text.at++;
        text.length--;
    }
    return text;
}

bool text_next(struct bytes *file, struct bytes *line) {
    if (file->length == 0)
        return false;
    *line = *file;
    for (size_t i = 0; i + 1 < file->length; i++)
        if (file->at[i] == '\r' && file->at[i + 1] == '\n') {
            line->length = i;
            file->at += i + 2;
            file->length -= i + 2;
            return true;
        }
    file->at += file->length;
    file->length = 0;
    return true;
}

bool text_line(struct bytes file, size_t number, struct bytes *line) {
    for (size_t i = 0; i < number; i++)
        if (!text_next(&file, line))
            return false;
    return text_next(&file, line);
}

size_t text_lines(struct bytes file, struct bytes *lines, size_t most) {
    struct bytes line;
    size_t count = 0;
    for (; text_next(&file, &line); count++)
        if (count < most)
            lines[count] = line;
    return count;
}
