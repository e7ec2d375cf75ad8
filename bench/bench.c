/* How long the library takes for a file, beside a plain read and a memcpy of
 * the same bytes.
 *
 *   bench              every file
 *   bench only NAME    one of them
 *   bench cold         the file "right", which each work finds in no cache, as a file that has just been loaded
 *   bench small        each file a hundredth as long, once, to see that all works
 *   bench once WORK NAME
 *                      one work once on that file, untimed, and its length;
 *                      read, copy, structure, check, claims, search, sheet, number, or nothing
 *   bench stack        the stack that each work takes
 *   bench write PATH   writes the file "right" there
 *
 * Status 1 where an answer is not the right one, since a time would say nothing
 * then, and 2 where nothing can be done. */
#include "files.h"
#include "read.h"
#include "stack.h"

/* The structural check alone, refusals 3 to 10; its answer is as cwr_check_within's. */
uint64_t probe_structure(const uint8_t *file, size_t length);

enum work { READ, COPY, STRUCTURE, CHECK, CLAIMS, SEARCH, SHEET, NUMBER, WORKS };

/* SHEET_ROOM: more than a sheet takes, to see that what is beyond is left alone. */
enum { FINDINGS_BYTES = CWR_MOST_RECORDS * CWR_FINDING_BYTES, SHEET_ROOM = CWR_SHEET_BYTES + 64, UNTOUCHED = 0x55 };

/* What a check writes of each record. */
struct judged {
    uint8_t *verdicts, *findings;
};

/* One file and what is lent to the works on it. */
struct bench {
    struct file file;
    uint8_t *wiped, *out, sheet[SHEET_ROOM], over[CWR_OVER_BYTES];
    struct judged check, claims; /* without a territory table, and with one */
    struct cwr_claim *list;
};

/* What is stored here has to be computed. */
static volatile uint64_t seen;

/* ---- the works */

static uint64_t read_plainly(struct bench *b) {
    seen = read_all(b->file.bytes, b->file.length);
    return 0;
}

static uint64_t copy(struct bench *b) {
    memcpy(b->out, b->file.bytes, b->file.length);
    seen = b->out[b->file.length / 2];
    return 0;
}

static uint64_t structure(struct bench *b) {
    return probe_structure(b->file.bytes, b->file.length);
}

static uint64_t check(struct bench *b) {
    const struct codes *tables = b->file.tables;
    return cwr_check_within(CWR_LARGEST_TOLERANCE, b->file.bytes, b->file.length, tables[LANGUAGES].bytes, tables[LANGUAGES].length,
                            tables[SOCIETIES].bytes, tables[SOCIETIES].length, tables[CATEGORIES].bytes, tables[CATEGORIES].length,
                            b->check.verdicts, CWR_MOST_RECORDS, b->check.findings, FINDINGS_BYTES);
}

static uint64_t claims(struct bench *b) {
    const struct codes *tables = b->file.tables;
    return cwr_check_claims(CWR_LARGEST_TOLERANCE, b->file.bytes, b->file.length, tables[LANGUAGES].bytes, tables[LANGUAGES].length,
                            tables[SOCIETIES].bytes, tables[SOCIETIES].length, tables[CATEGORIES].bytes, tables[CATEGORIES].length,
                            b->file.territories.bytes, b->file.territories.length, b->list, CWR_MOST_RECORDS, b->claims.verdicts,
                            CWR_MOST_RECORDS, b->claims.findings, FINDINGS_BYTES, b->over, sizeof b->over);
}

static uint64_t search(struct bench *b) {
    const struct codes *tables = b->file.tables;
    return cwr_first_rejected(CWR_LARGEST_TOLERANCE, b->file.bytes, b->file.length, tables[LANGUAGES].bytes, tables[LANGUAGES].length,
                              tables[SOCIETIES].bytes, tables[SOCIETIES].length, tables[CATEGORIES].bytes, tables[CATEGORIES].length);
}

/* A fresh one each time, so that it is the sheet of this file alone, and never full. */
static uint64_t sheet(struct bench *b) {
    const struct codes *tables = b->file.tables;
    memset(b->sheet, 0, CWR_SHEET_BYTES);
    return cwr_sheet_add(b->sheet, SHEET_ROOM, b->file.bytes, b->file.length, tables[LANGUAGES].bytes, tables[LANGUAGES].length,
                         tables[SOCIETIES].bytes, tables[SOCIETIES].length, tables[CATEGORIES].bytes, tables[CATEGORIES].length);
}

static uint64_t number(struct bench *b) {
    return cwr_number(b->wiped, b->file.length, b->out, b->file.length);
}

static uint64_t (*const works[WORKS])(struct bench *b) = {read_plainly, copy, structure, check, claims, search, sheet, number};
static const char *const names[WORKS] = {"read", "copy", "structure", "check", "claims", "search", "sheet", "number"};

/* ---- whether they did what is right */

_Noreturn static void wrong(const struct file *f, const char *words) {
    printf("bench: %s: %s\n", f->name, words);
    exit(1);
}

static uint64_t right_answer(const struct file *f, enum work work) {
    const uint64_t answers[WORKS] = {0, 0, f->structure, f->structure, f->structure, f->search, f->structure, f->number};
    return answers[work];
}

static void compare_answer(const struct file *f, enum work work, uint64_t answer) {
    static const char *const words[WORKS] = {
        "", "", "the structural check's answer is wrong", "the check's answer is wrong",
        "the answer of the check with territories is wrong", "the search's answer is wrong", "the sheet's answer is wrong",
        "numbering's answer is wrong"};
    if (answer != right_answer(f, work))
        wrong(f, words[work]);
}

static void compare_untouched(const struct file *f, const uint8_t *bytes, size_t from, size_t to) {
    for (size_t i = from; i < to; i++)
        if (bytes[i] != UNTOUCHED)
            wrong(f, "a call wrote where it may not");
}

static void compare_sheet(const struct bench *b) {
    for (size_t k = 0; k < SHEET_NUMBERS; k++)
        if (cwr_sheet_number(b->sheet, k) != b->file.sheet[k])
            wrong(&b->file, "a number of the sheet is wrong");
    compare_untouched(&b->file, b->sheet, CWR_SHEET_BYTES, SHEET_ROOM);
}

/* How many records are judged. */
static size_t judged_of(const struct file *f) {
    return f->structure == f->records ? f->records : 0;
}

static void compare_judged(const struct file *f, const struct judged *written) {
    size_t judged = judged_of(f);
    if (memcmp(written->verdicts, f->verdicts, judged) != 0)
        wrong(f, "a verdict is wrong");
    if (memcmp(written->findings, f->findings, judged * CWR_FINDING_BYTES) != 0)
        wrong(f, "a finding is wrong");
    compare_untouched(f, written->verdicts, judged, CWR_MOST_RECORDS);
    compare_untouched(f, written->findings, judged * CWR_FINDING_BYTES, FINDINGS_BYTES);
}

static void compare_bytes(const struct file *f, const void *bytes, size_t length, uint8_t byte, const char *words) {
    for (size_t i = 0; i < length; i++)
        if (((const uint8_t *)bytes)[i] != byte)
            wrong(f, words);
}

/* No territory is over in any file: a check that passes says so, and leaves the list all zeros. */
static void compare_lent(const struct bench *b) {
    bool refused = judged_of(&b->file) == 0;
    compare_bytes(&b->file, b->over, sizeof b->over, refused ? UNTOUCHED : 255, "a territory is named, and none is over");
    compare_bytes(&b->file, b->list, CWR_MOST_RECORDS * sizeof *b->list, refused ? UNTOUCHED : 0, "the list of claims is not as it should be");
}

/* What was written, by the checks, the sheet and numbering. */
static void compare_written(const struct bench *b) {
    const struct file *f = &b->file;
    compare_judged(f, &b->check);
    compare_judged(f, &b->claims);
    compare_lent(b);
    compare_sheet(b);
    if (memcmp(b->out, f->bytes, f->right_length) != 0)
        wrong(f, "the numbered file is wrong");
}

/* ---- the measures */

static uint64_t now(void) {
    struct timespec time;
    if (clock_gettime(1, &time) != 0)
        stop("clock", "it cannot be read");
    return (uint64_t)time.seconds * 1000000000u + (uint64_t)time.nanoseconds;
}

/* More than any cache holds is written, so that nothing else is left in one. */
static void empty_caches(void) {
    enum { MANY = 256 << 20 };
    static uint8_t *bytes;
    static int byte;
    if (!bytes && !(bytes = malloc(MANY)))
        stop("caches", "no memory");
    memset(bytes, ++byte, MANY);
    seen = bytes[MANY / 2];
}

static uint64_t timed(struct bench *b, enum work work, bool cold) {
    if (cold)
        empty_caches();
    uint64_t begun = now(), answer = works[work](b), took = now() - begun;
    compare_answer(&b->file, work, answer);
    return took;
}

/* How often a work is done in a row, unless it takes that long, and how often the works take turns at that; whether the caches are emptied
 * before each. */
struct pace {
    uint64_t in_a_row, nanoseconds, rounds;
    bool cold;
};

/* The best time of a row. */
static uint64_t best_of_row(struct bench *b, enum work work, const struct pace *pace) {
    uint64_t best = UINT64_MAX, spent = 0;
    for (uint64_t i = 0; i < pace->in_a_row && spent < pace->nanoseconds; i++) {
        uint64_t took = timed(b, work, pace->cold);
        spent += took;
        if (took < best)
            best = took;
    }
    return best;
}

/* Each work is done many times in a row, so that it finds in the caches what it left there, unless they are emptied; and they take turns at
 * that, so that none has the quieter machine. Numbering is the last that writes to `out`. */
static void take_turns(struct bench *b, const struct pace *pace, uint64_t best[WORKS]) {
    for (enum work work = 0; work < WORKS; work++)
        best[work] = UINT64_MAX;
    for (uint64_t round = 0; round < pace->rounds; round++)
        for (enum work work = 0; work < WORKS; work++) {
            uint64_t took = best_of_row(b, work, pace);
            if (took < best[work])
                best[work] = took;
        }
}

static void print_heads(void) {
    printf("%-19s %7s %9s %6s %6s  %-21s  %-21s  %-15s  %-24s  %-15s  %-21s\n", "", "", "", "read", "copy", "structure", "check", "claims",
           "search", "sheet", "number");
    printf("%-19s %7s %9s %6s %6s", "file", "records", "bytes", "ms", "ms");
    printf("  %7s %6s %6s  %7s %6s %6s", "ms", "x read", "ns/rec", "ms", "x read", "ns/rec");
    printf("  %7s %7s  %7s %8s %7s  %7s %7s  %7s %6s %6s\n", "ms", "x check", "ms", "x struct", "x check", "ms", "x check", "ms", "x copy",
           "ns/rec");
}

static void print_work(const struct file *f, uint64_t took, uint64_t beside) {
    printf("  %7.2f %6.2f %6.1f", (double)took / 1e6, (double)took / (double)beside, (double)took / (double)f->records);
}

/* The search lies between the structural check and the whole one, so it stands beside both. */
static void print_search(const uint64_t best[WORKS]) {
    double took = (double)best[SEARCH];
    printf("  %7.2f %8.2f %7.2f", took / 1e6, took / (double)best[STRUCTURE], took / (double)best[CHECK]);
}

/* The check with territories is a check and more, and the sheet one that writes no buffers, so they stand beside that. */
static void print_beside_check(const uint64_t best[WORKS], enum work work) {
    printf("  %7.2f %7.2f", (double)best[work] / 1e6, (double)best[work] / (double)best[CHECK]);
}

static void print_times(const struct file *f, const uint64_t best[WORKS]) {
    printf("%-19s %7lu %9lu %6.2f %6.2f", f->name, (unsigned long)f->records, (unsigned long)f->length, (double)best[READ] / 1e6,
           (double)best[COPY] / 1e6);
    print_work(f, best[STRUCTURE], best[READ]);
    print_work(f, best[CHECK], best[READ]);
    print_beside_check(best, CLAIMS);
    print_search(best);
    print_beside_check(best, SHEET);
    print_work(f, best[NUMBER], best[COPY]);
    printf("\n");
}

/* ---- a file, and all of them */

/* Bytes to lend, each as what is left alone stays. */
static void *lent(size_t length) {
    void *bytes = malloc(length);
    if (!bytes)
        stop("bench", "no memory");
    return memset(bytes, UNTOUCHED, length);
}

static struct judged lent_judged(void) {
    return (struct judged){lent(CWR_MOST_RECORDS), lent(FINDINGS_BYTES)};
}

static void begin(struct bench *b, const struct maker *maker, uint64_t share) {
    make(&b->file, maker, share);
    b->wiped = unnumbered(&b->file);
    b->out = lent(CWR_MOST_BYTES);
    b->check = lent_judged();
    b->claims = lent_judged();
    b->list = lent(CWR_MOST_RECORDS * sizeof *b->list);
    memset(b->sheet, UNTOUCHED, SHEET_ROOM);
    memset(b->over, UNTOUCHED, sizeof b->over);
}

static void free_judged(const struct judged *judged) {
    free(judged->verdicts);
    free(judged->findings);
}

static void end(struct bench *b) {
    free(b->wiped);
    free(b->out);
    free_judged(&b->check);
    free_judged(&b->claims);
    free(b->list);
    forget(&b->file);
}

static void measure(const struct maker *maker, uint64_t share, const struct pace *pace) {
    struct bench b;
    uint64_t best[WORKS];
    begin(&b, maker, share);
    take_turns(&b, pace, best);
    compare_written(&b);
    print_times(&b.file, best);
    end(&b);
}

static void measure_all(uint64_t share, const struct pace *pace) {
    print_heads();
    for (size_t i = 0; i < makers_count; i++)
        measure(&makers[i], share, pace);
}

static const struct maker *maker_named(const char *name) {
    for (size_t i = 0; i < makers_count; i++)
        if (strcmp(makers[i].name, name) == 0)
            return &makers[i];
    stop(name, "no file has this name");
}

static void measure_only(const char *name, const struct pace *pace) {
    const struct maker *maker = maker_named(name);
    print_heads();
    measure(maker, 1, pace);
}

/* WORKS where the name is that of no work. */
static enum work work_named(const char *name) {
    enum work work = 0;
    while (work < WORKS && strcmp(names[work], name) != 0)
        work++;
    if (work == WORKS && strcmp(name, "nothing") != 0)
        stop(name, "no work has this name");
    return work;
}

static void do_once(const char *name, const char *file) {
    struct bench b;
    enum work work = work_named(name);
    begin(&b, maker_named(file), 1);
    if (work != WORKS)
        compare_answer(&b.file, work, works[work](&b));
    printf("%lu\n", (unsigned long)b.file.length);
    end(&b);
}

static void write_right(const char *path) {
    struct file f;
    make(&f, maker_named("right"), 1);
    FILE *to = fopen(path, "wb");
    if (!to || fwrite(f.bytes, 1, f.length, to) != f.length || fclose(to) != 0)
        stop(path, "it cannot be written");
    forget(&f);
}

/* ---- the stack */

struct task {
    struct bench *bench;
    enum work work;
};

static void *do_task(void *lent) {
    struct task *task = lent;
    works[task->work](task->bench);
    return NULL;
}

static void note_stacks(struct bench *b, size_t most[WORKS]) {
    for (enum work work = STRUCTURE; work < WORKS; work++) {
        size_t stack = stack_of(do_task, &(struct task){b, work});
        most[work] = stack > most[work] ? stack : most[work];
    }
}

/* The most of every file, and of each with a first record of no known type: looking for the refusal goes deeper than a right file. */
static void measure_stacks(void) {
    size_t most[WORKS] = {0};
    for (size_t i = 0; i < makers_count; i++) {
        struct bench b;
        begin(&b, &makers[i], 100);
        note_stacks(&b, most);
        b.file.bytes[0] = b.wiped[0] = 'X';
        note_stacks(&b, most);
        end(&b);
    }
    for (enum work work = STRUCTURE; work < WORKS; work++)
        printf("%-10s %6lu bytes of stack\n", names[work], (unsigned long)most[work]);
}

int main(int words, char **word) {
    const struct pace usual = {20, 100000000, 10, false}, once = {1, 1, 1, false}, cold = {1, 1, 20, true};
    if (words == 1)
        measure_all(1, &usual);
    else if (words == 2 && strcmp(word[1], "small") == 0)
        measure_all(100, &once);
    else if (words == 2 && strcmp(word[1], "cold") == 0)
        measure_only("right", &cold);
    else if (words == 2 && strcmp(word[1], "stack") == 0)
        measure_stacks();
    else if (words == 3 && strcmp(word[1], "only") == 0)
        measure_only(word[2], &usual);
    else if (words == 4 && strcmp(word[1], "once") == 0)
        do_once(word[2], word[3]);
    else if (words == 3 && strcmp(word[1], "write") == 0)
        write_right(word[2]);
    else
        stop("usage", "bench [small | cold | only NAME | once WORK NAME | stack | write PATH]");
    return 0;
}
