/* The command line. */
#ifndef OPTIONS_H
#define OPTIONS_H

#include <stdbool.h>
#include <stddef.h>
#include <stdint.h>

enum format { FORMAT_TEXT, FORMAT_LINE, FORMAT_JSON, FORMAT_LIST };

enum { MOST_FINDINGS = 1000 }; /* of a file, where nothing else is asked for */

struct options {
    bool help, version, list, first, summary, sheet, recursive, force;
    bool has_tolerance, has_format, has_level, has_most;
    uint64_t tolerance;
    enum format format;
    size_t level; /* findings below it are not told; 1 to 4, as the verdicts */
    size_t most;  /* findings of a file that are told */
    const char *tables, *html;
    const char *territories;  /* the file of the territory table; null: none is asked for */
    const char *number;       /* where to write the numbered file; null: check */
    const char *const *files; /* as they were named */
    size_t count;
};

/* The names of files are gathered in `room`, which has an entry a word. False, with words on standard error, where the command line is not
 * one. */
bool options_read(struct options *options, int count, char *const *words, const char **room);

extern const char options_usage[];

#endif
