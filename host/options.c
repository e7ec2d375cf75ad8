#include "options.h"

#include <string.h>

#include "cwr.h"
#include "out.h"
#include "words.h"

const char options_usage[] =
    "usage: cwrcheck --tables FOLDER [OPTION..] FILE..   check files, CWR 2.2\n"
    "       cwrcheck --number OUT [--force] FILE         write FILE with its numbers put in to OUT\n"
    "       cwrcheck --help | --version\n"
    "\n"
    "  FILE             a file, - for standard input, or a folder: each ordinary file in it, in the order of their names\n"
    "  --recursive      of the folders in a folder too\n"
    "  --tables FOLDER  where languages.txt, societies.txt and categories.txt are\n"
    "  --territories FILE\n"
    "                   the territory table: a code a line, and after it that of its group. Collection shares are looked at with it\n"
    "  --tolerance N    how far shares may be off, 0 to 6 hundredths of a percent; 6 where it is not given\n"
    "  --format NAME    text, line (a line a finding, as compilers print) or json (an object a line); text where it is not given\n"
    "  --first          of each file the first work that is rejected for something in itself; nothing else is looked for\n"
    "  --list           a line a record of one file, for other programs to read\n"
    "  --summary        the outcome of each file, the totals and how often each finding holds, and no more\n"
    "  --sheet          the client's catalogue sheet of all files as well: shares that miss the whole, records by finding and verdict\n"
    "  --level LEVEL    findings of this level and above: FR, RR, TR or GR\n"
    "  --most N         findings of a file that are told, or all; 1000 where it is not given\n"
    "  --html OUT       write a page for the clerk to OUT as well\n"
    "  --force          replace OUT where it exists; FILE itself is never replaced\n"
    "\n"
    "status: 0 all accepted, or numbered, or with --first no work rejected; 1 defaults or records left out; 2 works rejected;\n"
    "3 files refused; 4 wrong use, or reading or writing failed, or files left out of the sheet\n";

static bool wrong_use(const char *words, const char *about) {
    return complain("%s%s; cwrcheck --help says how it is used", words, about);
}

/* Decimal digits alone. What does not fit 64 bits becomes the largest number, which is too large in any case. */
static bool read_number(const char *word, uint64_t *number) {
    *number = 0;
    for (const char *at = word; *at; at++) {
        if (*at < '0' || *at > '9')
            return false;
        uint64_t digit = (uint64_t)(*at - '0');
        *number = *number > (UINT64_MAX - digit) / 10 ? UINT64_MAX : *number * 10 + digit;
    }
    return *word != '\0';
}

/* ---- options with a value */

static bool take_tables(struct options *options, const char *value) {
    options->tables = value;
    return true;
}

/* Standard input is for what is checked. */
static bool take_territories(struct options *options, const char *value) {
    options->territories = value;
    return strcmp(value, "-") != 0 || wrong_use("--territories takes the name of a file, and not ", value);
}

static bool take_tolerance(struct options *options, const char *value) {
    options->has_tolerance = true;
    return read_number(value, &options->tolerance) || wrong_use("the tolerance is no number: ", value);
}

static bool take_format(struct options *options, const char *value) {
    static const char *const names[] = {[FORMAT_TEXT] = "text", [FORMAT_LINE] = "line", [FORMAT_JSON] = "json"};
    options->has_format = true;
    for (size_t i = 0; i < sizeof names / sizeof names[0]; i++)
        if (strcmp(value, names[i]) == 0) {
            options->format = (enum format)i;
            return true;
        }
    return wrong_use("the format is none of text, line and json: ", value);
}

static bool take_level(struct options *options, const char *value) {
    options->has_level = true;
    options->level = level_named(value);
    return options->level != 0 || wrong_use("the level is none of FR, RR, TR and GR: ", value);
}

static bool take_most(struct options *options, const char *value) {
    uint64_t number = SIZE_MAX;
    if (strcmp(value, "all") != 0 && !read_number(value, &number))
        return wrong_use("--most takes a number or all: ", value);
    options->has_most = true;
    options->most = number < SIZE_MAX ? (size_t)number : SIZE_MAX;
    return true;
}

/* An option in the place of a name is a slip, and a file of that name would be hard to get rid of. */
static bool take_out(const char **out, const char *value) {
    *out = value;
    return (value[0] != '\0' && value[0] != '-') ||
           complain("this is no name to write to: \"%s\"; where it begins with -, put ./ before it", value);
}

static bool take_html(struct options *options, const char *value) {
    return take_out(&options->html, value);
}

static bool take_numbered(struct options *options, const char *value) {
    return take_out(&options->number, value);
}

/* ---- all options */

struct option {
    const char *name;
    size_t flag;                                                /* where in the options it is noted that it was given; or */
    bool (*take)(struct options *options, const char *value); /* what it does with its value */
};

#define FLAG(name) offsetof(struct options, name), NULL

static const struct option known[] = {
    {"--help", FLAG(help)},
    {"-h", FLAG(help)},
    {"--version", FLAG(version)},
    {"--list", FLAG(list)},
    {"--first", FLAG(first)},
    {"--summary", FLAG(summary)},
    {"--sheet", FLAG(sheet)},
    {"--recursive", FLAG(recursive)},
    {"--force", FLAG(force)},
    {"--tables", 0, take_tables},
    {"--territories", 0, take_territories},
    {"--tolerance", 0, take_tolerance},
    {"--format", 0, take_format},
    {"--level", 0, take_level},
    {"--most", 0, take_most},
    {"--html", 0, take_html},
    {"--number", 0, take_numbered},
};

/* The option that a word is, or begins with before a `=`. */
static const struct option *option_of(const char *word) {
    size_t length = strcspn(word, "=");
    for (size_t i = 0; i < sizeof known / sizeof known[0]; i++)
        if (strlen(known[i].name) == length && strncmp(known[i].name, word, length) == 0)
            return &known[i];
    return NULL;
}

/* How many words beside itself it takes: 0 or 1. Below 0, with words on standard error, where it is wrong. */
static int take_option(struct options *options, const char *word, const char *next) {
    const struct option *option = option_of(word);
    const char *equals = strchr(word, '=');
    if (!option) {
        wrong_use("unknown option ", word);
        return -1;
    }
    if (!option->take) {
        *((bool *)((char *)options + option->flag)) = true;
        return !equals || wrong_use("this option takes no value: ", word) ? 0 : -1;
    }
    if (!equals && !next) {
        wrong_use("a word is missing after ", word);
        return -1;
    }
    if (!option->take(options, equals ? equals + 1 : next))
        return -1;
    return equals ? 0 : 1;
}

/* ---- what fits together */

/* Numbering looks at no table and at no share, and reports nothing. */
static bool fits_numbering(const struct options *options) {
    if (options->tables || options->territories || options->list || options->first || options->summary || options->sheet ||
        options->recursive || options->html || options->has_tolerance || options->has_format || options->has_level || options->has_most)
        return wrong_use("--number takes one file, and of the options --force alone", "");
    return options->count == 1 || wrong_use("--number takes one file", "");
}

/* Its figures would contradict those of a report with another tolerance. */
static bool fits_sheet(const struct options *options) {
    if (options->format == FORMAT_LINE)
        return wrong_use("--sheet has no lines for findings: --format text or json", "");
    return !options->has_tolerance || options->tolerance == CWR_LARGEST_TOLERANCE ||
           wrong_use("--sheet has the tolerance 6, and takes no other", "");
}

/* What a report on all works has, and neither the first work alone nor a listing: the library looks for the one without a territory table,
 * and the other is fixed. */
static bool reports_all(const struct options *options) {
    return options->summary || options->sheet || options->has_level || options->has_most || options->html || options->territories;
}

#define REPORTS_ALL "--summary nor --sheet nor --level nor --most nor --html nor --territories"

static bool fits_check(const struct options *options) {
    if (!options->tables)
        return wrong_use("no folder of tables is named: --tables FOLDER", "");
    if (options->force && !options->html)
        return wrong_use("--force belongs to --number and --html", "");
    if (options->first && (options->list || reports_all(options)))
        return wrong_use("--first tells one work of a file, and takes neither --list nor " REPORTS_ALL, "");
    if (options->list && (options->has_format || reports_all(options)))
        return wrong_use("--list is a format of its own, and takes neither " REPORTS_ALL, "");
    if (options->summary && options->format == FORMAT_LINE)
        return wrong_use("--summary has no lines for findings: --format text or json", "");
    return !options->sheet || fits_sheet(options);
}

static bool fits(const struct options *options) {
    if (options->help || options->version)
        return true;
    if (options->count == 0)
        return wrong_use("no file is named", "");
    return options->number ? fits_numbering(options) : fits_check(options);
}

bool options_read(struct options *options, int count, char *const *words, const char **room) {
    *options = (struct options){.most = MOST_FINDINGS, .level = 1, .files = room};
    bool names = false; /* after -- every word is a name */
    for (int i = 1; i < count; i++) {
        if (!names && strcmp(words[i], "--") == 0) {
            names = true;
        } else if (!names && words[i][0] == '-' && words[i][1] != '\0') {
            int more = take_option(options, words[i], i + 1 < count ? words[i + 1] : NULL);
            if (more < 0)
                return false;
            i += more;
        } else {
            room[options->count++] = words[i];
        }
    }
    if (options->list)
        options->format = FORMAT_LIST;
    /* It looks for nothing below. */
    if (options->first)
        options->level = level_named("TR");
    return fits(options);
}
