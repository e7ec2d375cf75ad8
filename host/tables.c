#include "tables.h"

#include <stdio.h>
#include <stdlib.h>
#include <string.h>

#include "cwr.h"
#include "out.h"
#include "table_file.h"

static const struct {
    const char *name, *codes, *plural;
    size_t width;
} kinds[TABLES] = {
    {"languages.txt", "language", "languages", CWR_LANGUAGE_BYTES},
    {"societies.txt", "society", "societies", CWR_SOCIETY_BYTES},
    {"categories.txt", "distribution category", "categories", CWR_CATEGORY_BYTES},
};

const char *table_name(size_t place) {
    return place < TABLES ? kinds[place].name : "no table";
}

const char *table_plural(size_t place) {
    return kinds[place].plural;
}

size_t table_count(const struct tables *tables, size_t place) {
    return tables->of[place].length / kinds[place].width;
}

/* The codes are moved together where they stand: no line is shorter than its code. */
static bool gather(const char *path, size_t place, struct content *content, struct table *table) {
    struct table_lines lines = table_lines_of(content);
    struct bytes line;
    size_t length = 0;
    while (table_lines_next(&lines, &line)) {
        if (line.length != kinds[place].width)
            return table_code_wrong(path, lines.number, line, kinds[place].codes, kinds[place].width);
        memmove(content->bytes + length, line.at, line.length);
        length += line.length;
    }
    if (length == 0)
        table_warn_empty(path, kinds[place].codes);
    *table = (struct table){content->bytes, length};
    return true;
}

static bool read_path(const char *path, size_t place, struct table *table) {
    struct content content;
    if (!table_file_read(path, &content))
        return false;
    if (gather(path, place, &content, table))
        return true;
    file_free(&content);
    return false;
}

static bool read_table(const char *folder, size_t place, struct table *table) {
    size_t room = strlen(folder) + strlen(kinds[place].name) + 2;
    char *path = malloc(room);
    if (!path)
        return complain("not enough memory for %zu bytes", room);
    snprintf(path, room, "%s/%s", folder, kinds[place].name);
    bool done = read_path(path, place, table);
    free(path);
    return done;
}

bool tables_read(const char *folder, struct tables *tables) {
    *tables = (struct tables){{{NULL, 0}, {NULL, 0}, {NULL, 0}}};
    for (size_t place = 0; place < TABLES; place++)
        if (!read_table(folder, place, &tables->of[place])) {
            tables_free(tables);
            return false;
        }
    return true;
}

void tables_free(struct tables *tables) {
    for (size_t place = 0; place < TABLES; place++)
        free(tables->of[place].codes);
}
