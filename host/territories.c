#include "territories.h"

#include <stdlib.h>
#include <string.h>

#include "out.h"
#include "table_file.h"

enum { SHOWN_WORD = 20 };

static const char kind[] = "territory";

/* ---- the entries */

void territory_put(uint8_t entry[CWR_TERRITORY_BYTES], const uint8_t code[TERRITORY_CODE], size_t group) {
    size_t number = group == NO_TERRITORY ? CWR_NO_GROUP : group;
    memmove(entry, code, TERRITORY_CODE);
    entry[TERRITORY_CODE] = (uint8_t)(number & 0xff);
    entry[TERRITORY_CODE + 1] = (uint8_t)(number >> 8 & 0xff);
}

static const uint8_t *entry_at(const struct territories *territories, size_t place) {
    return territories->entries + place * CWR_TERRITORY_BYTES;
}

struct bytes territory_code(const struct territories *territories, size_t place) {
    return (struct bytes){entry_at(territories, place), TERRITORY_CODE};
}

size_t territory_group(const struct territories *territories, size_t place) {
    const uint8_t *entry = entry_at(territories, place);
    size_t number = entry[TERRITORY_CODE] + (size_t)256 * entry[TERRITORY_CODE + 1];
    return number == CWR_NO_GROUP ? NO_TERRITORY : number;
}

static bool is_same(struct bytes a, struct bytes b) {
    return a.length == b.length && memcmp(a.at, b.at, a.length) == 0;
}

size_t territory_of(const struct territories *territories, struct bytes code) {
    for (size_t place = 0; place < territories->count; place++)
        if (is_same(territory_code(territories, place), code))
            return place;
    return NO_TERRITORY;
}

/* ---- a line */

static bool is_blank(uint8_t byte) {
    return byte == ' ' || byte == '\t';
}

/* Takes the next word off the line; one of length 0 where none is left. */
static struct bytes next_word(struct bytes *line) {
    while (line->length > 0 && is_blank(line->at[0])) {
        line->at++;
        line->length--;
    }
    struct bytes word = {line->at, 0};
    while (word.length < line->length && !is_blank(line->at[word.length]))
        word.length++;
    line->at += word.length;
    line->length -= word.length;
    return word;
}

/* ---- the table */

/* Where the reading stands. */
struct gathering {
    const char *path;
    const struct content *content;
    struct territories *to;
    size_t line;                        /* its number */
    size_t lines[CWR_MOST_TERRITORIES]; /* that of each territory so far */
};

static bool wrong_length(const struct gathering *gathering, struct bytes code) {
    return table_code_wrong(gathering->path, gathering->line, code, kind, TERRITORY_CODE);
}

static bool third_word(const struct gathering *gathering, struct bytes word) {
    struct out out = table_line_wrong(gathering->path, gathering->line);
    say_quoted(&out, word, SHOWN_WORD);
    say(&out, " is a third word; a line has a code, and the code of its group, and no more\n");
    return false;
}

static bool stands_twice(const struct gathering *gathering, struct bytes code, size_t line) {
    struct out out = table_line_wrong(gathering->path, gathering->line);
    say_quoted(&out, code, SHOWN_WORD);
    say(&out, " stands in line %zu already\n", line);
    return false;
}

static bool too_many(const struct gathering *gathering) {
    struct out out = table_line_wrong(gathering->path, gathering->line);
    say(&out, "a table has at most %u territories, and this is one more\n", CWR_MOST_TERRITORIES);
    return false;
}

/* The line from this one on that begins with the code; 0 where there is none. */
static size_t line_from_here(const struct gathering *gathering, struct bytes code) {
    struct table_lines lines = table_lines_of(gathering->content);
    struct bytes line;
    while (table_lines_next(&lines, &line))
        if (lines.number >= gathering->line && is_same(next_word(&line), code))
            return lines.number;
    return 0;
}

/* It does not stand earlier, so it is a slip of the order or of the code, and which is said. */
static bool wrong_group(const struct gathering *gathering, struct bytes group) {
    size_t line = line_from_here(gathering, group);
    struct out out = table_line_wrong(gathering->path, gathering->line);
    say(&out, "its group ");
    say_quoted(&out, group, SHOWN_WORD);
    if (line == gathering->line)
        say(&out, " is the territory itself\n");
    else if (line > 0)
        say(&out, " stands later, in line %zu; a group must stand before what it holds\n", line);
    else
        say(&out, " stands nowhere in the file\n");
    return false;
}

static bool add(struct gathering *gathering, struct bytes code, struct bytes group) {
    struct territories *to = gathering->to;
    size_t same = territory_of(to, code), holder = territory_of(to, group);
    if (to->count == CWR_MOST_TERRITORIES)
        return too_many(gathering);
    if (same != NO_TERRITORY)
        return stands_twice(gathering, code, gathering->lines[same]);
    if (group.length > 0 && holder == NO_TERRITORY)
        return wrong_group(gathering, group);
    gathering->lines[to->count] = gathering->line;
    territory_put(to->entries + to->count * CWR_TERRITORY_BYTES, code.at, holder);
    to->count++;
    return true;
}

static bool add_line(struct gathering *gathering, struct bytes line) {
    struct bytes code = next_word(&line), group = next_word(&line), more = next_word(&line);
    if (code.length == 0)
        return true; /* of tabs alone */
    if (code.length != TERRITORY_CODE)
        return wrong_length(gathering, code);
    if (group.length > 0 && group.length != TERRITORY_CODE)
        return wrong_length(gathering, group);
    if (more.length > 0)
        return third_word(gathering, more);
    return add(gathering, code, group);
}

static bool gather(const char *path, const struct content *content, struct territories *to) {
    struct gathering gathering = {.path = path, .content = content, .to = to};
    struct table_lines lines = table_lines_of(content);
    struct bytes line;
    while (table_lines_next(&lines, &line)) {
        gathering.line = lines.number;
        if (!add_line(&gathering, line))
            return false;
    }
    if (to->count == 0)
        table_warn_empty(path, kind);
    return true;
}

bool territories_read(const char *path, struct territories *territories) {
    struct content content;
    if (!table_file_read(path, &content))
        return false;
    *territories = (struct territories){malloc((size_t)CWR_MOST_TERRITORIES * CWR_TERRITORY_BYTES), 0};
    bool done = territories->entries ? gather(path, &content, territories) : complain("not enough memory for the territories");
    file_free(&content);
    if (!done)
        territories_free(territories);
    return done;
}

void territories_free(struct territories *territories) {
    free(territories->entries);
    *territories = (struct territories){NULL, 0};
}
