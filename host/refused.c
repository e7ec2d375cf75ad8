#include "refused.h"

#include <stdlib.h>
#include <string.h>

#include "cwr.h"
#include "letters.h"
#include "out.h"
#include "words.h"

enum { BY_LINE_END = 4, BY_TYPE = 6, BY_PLACE = 7, BY_NUMBER = 8, BY_TRAILER = 9, BY_VERSION = 10 };
enum { VERSION_START = 102, REVISION_START = 105, VERSION_SIZE = 3, LINE_END = 2 };

/* A copy of the file that something is tried on. Null where there is no memory, and then less is told. */
static uint8_t *copy_of(struct bytes file, size_t more) {
    uint8_t *copy = malloc(file.length + more + 1);
    if (copy)
        memmove(copy, file.at, file.length);
    return copy;
}

/* What numbering answers to a copy; its result is not looked at. Where there is no memory, an answer that is none. */
static uint64_t answer_to(const uint8_t *copy, size_t length) {
    uint8_t *numbered = malloc(length + 1);
    uint64_t answer = numbered ? cwr_number(copy, length, numbered, length) : UINT64_MAX;
    free(numbered);
    return answer;
}

/* ---- 4: a byte that belongs in no record, or a line without its end */

/* The first byte that may not stand in a record, in a line that was split off at CR LF; its length where there is none. */
static size_t first_control(struct bytes line) {
    size_t at = 0;
    while (at < line.length && line.at[at] >= 32)
        at++;
    return at;
}

static bool is_utf16(struct bytes file) {
    return file.length >= 2 && (memcmp(file.at, "\xff\xfe", 2) == 0 || memcmp(file.at, "\xfe\xff", 2) == 0);
}

/* Where an LF stands alone, an editor ends the line there, and so does what is shown. */
static void explain_line_end(struct out *out, struct refused *refused, struct bytes file) {
    size_t at = first_control(refused->text);
    bool is_end = at < refused->text.length && refused->text.at[at] == '\n';
    refused->column = at + 1;
    if (is_utf16(file))
        say(out, "The file is in UTF-16; CWR has one byte a letter.");
    else if (at == refused->text.length)
        say(out, "The file ends here, and no CR LF stands after its last line.");
    else if (is_end && !memchr(file.at, '\r', file.length))
        say(out, "The lines of the file end in LF alone; a CR must stand before each.");
    else if (is_end)
        say(out, "Character %zu of the line is an LF without a CR before it.", at + 1);
    else if (refused->text.at[at] == '\r')
        say(out, "Character %zu of the line is a CR without an LF after it.", at + 1);
    else
        say(out, "Character %zu of the line is the byte \\x%02x.", at + 1, refused->text.at[at]);
    if (is_end)
        refused->text.length = at;
}

/* ---- 6: type and length */

/* How many bytes more than letters the text has if it is read as UTF-8. */
static size_t bytes_of_utf8(struct bytes text) {
    size_t more = 0;
    while (text.length > 0) {
        size_t length = utf8_length(text);
        more += length > 1 ? length - 1 : 0;
        length = length > 0 ? length : 1;
        text.at += length;
        text.length -= length;
    }
    return more;
}

static void explain_unknown_type(struct out *out, struct refused *refused) {
    if (refused->text.length >= 3 && memcmp(refused->text.at, "\xef\xbb\xbf", 3) == 0) {
        say(out, "A byte order mark stands before the type (the bytes EF BB BF); CWR has none.");
    } else if (refused->text.length == 0) {
        say(out, "The line is empty.");
    } else {
        say(out, "There is no record type ");
        say_quoted(out, text_field(refused->text, 1, 3), 3);
        say(out, " in the registration of works, as far as it is checked.");
    }
}

static void explain_type(struct out *out, struct refused *refused) {
    struct bytes text = refused->text;
    size_t length = cwr_record_length(text.at, text.length);
    if (length == 0) {
        explain_unknown_type(out, refused);
        return;
    }
    bool longer = text.length > length;
    size_t off = longer ? text.length - length : length - text.length;
    say(out, "A record of type ");
    say_text(out, text_field(text, 1, 3));
    say(out, " has %zu characters; this one has %zu, %zu too %s.", length, text.length, off, longer ? "many" : "few");
    if (longer && bytes_of_utf8(text) == off)
        say(out, " Its letters are in UTF-8, which takes more than a byte for some; CWR has one byte a letter (ISO 8859-1).");
    refused->column = longer ? length + 1 : text.length + 1;
}

/* ---- 7: what may stand in a place */

/* Types that stand for all that may stand where they do. */
static const struct {
    const char *type, *words;
} kinds[] = {{"HDR", "HDR"}, {"GRH", "GRH"}, {"NWR", "NWR or REV"}, {"SPU", "a detail record of the work"}, {"GRT", "GRT"}, {"TRL", "TRL"}};

/* Whether the library takes a record of this type after so many bytes of the file. */
static bool may_stand(struct bytes before, uint32_t place, const char *type) {
    size_t length = cwr_record_length((const uint8_t *)type, 3);
    uint8_t *copy = copy_of(before, length + LINE_END);
    if (!copy)
        return false;
    memset(copy + before.length, ' ', length);
    memmove(copy + before.length, type, length < 3 ? length : 3);
    memmove(copy + before.length + length, "\r\n", LINE_END);
    uint64_t answer = answer_to(copy, before.length + length + LINE_END);
    free(copy);
    uint32_t refusal = cwr_refusal(answer);
    return refusal == BY_PLACE ? cwr_place(answer) != place : refusal == 0 || refusal == BY_VERSION;
}

static void explain_place(struct out *out, struct refused *refused, struct bytes file) {
    struct bytes before = {file.at, refused->ends ? file.length : (size_t)(refused->text.at - file.at)};
    bool any = false;
    if (refused->ends)
        say(out, "The file ends here");
    else
        say(out, "Here stands ");
    if (!refused->ends)
        say_quoted(out, text_field(refused->text, 1, 3), 3);
    for (size_t i = 0; i < sizeof kinds / sizeof kinds[0]; i++)
        if (may_stand(before, refused->place, kinds[i].type)) {
            say(out, "%s%s", any ? ", or " : "; what may stand here: ", kinds[i].words);
            any = true;
        }
    say(out, any ? "." : "; nothing more may stand here.");
}

/* ---- 8 and 9: numbers, found and expected */

struct number_field {
    const char *types, *name; /* types: of three letters each, or empty for headers and details */
    size_t start, size;
};

static const struct number_field number_fields[] = {
    {"GRH", "group number", 7, 5},     {"GRT", "group number", 4, 5}, {"GRT", "count of transactions", 9, 8},
    {"GRT", "count of records", 17, 8}, {"TRL", "count of groups", 4, 5}, {"TRL", "count of transactions", 9, 8},
    {"TRL", "count of records", 17, 8}, {"", "transaction number", 4, 8}, {"", "record number", 12, 8},
};

static bool has_number(struct bytes record, const struct number_field *field) {
    bool control = text_is(record, "GRH") || text_is(record, "GRT") || text_is(record, "TRL");
    return field->types[0] ? text_is(record, field->types) : !control;
}

static void compare_numbers(struct out *out, struct refused *refused, struct bytes expected) {
    for (size_t i = 0; i < sizeof number_fields / sizeof number_fields[0]; i++) {
        const struct number_field *field = &number_fields[i];
        struct bytes is = text_field(refused->text, field->start, field->size);
        struct bytes right = text_field(expected, field->start, field->size);
        if (!has_number(refused->text, field) || is.length != right.length || memcmp(is.at, right.at, is.length) == 0)
            continue;
        refused->column = refused->column == 1 ? field->start : refused->column;
        say(out, "The %s (start %zu) is ", field->name, field->start);
        say_quoted(out, is, field->size);
        say(out, " and should be ");
        say_quoted(out, right, field->size);
        say(out, "; ");
    }
}

/* Numbering tells what is expected. It would refuse another version, on which no number depends. */
static void explain_number(struct out *out, struct refused *refused, struct bytes file) {
    size_t at = (size_t)(refused->text.at - file.at);
    uint8_t *copy = copy_of(file, 0), *numbered = malloc(file.length + 1);
    if (copy && numbered) {
        if (file.length > REVISION_START + VERSION_SIZE)
            memmove(copy + VERSION_START - 1, "2.2000", 2 * VERSION_SIZE);
        if (cwr_refusal(cwr_number(copy, file.length, numbered, file.length)) == 0)
            compare_numbers(out, refused, (struct bytes){numbered + at, refused->text.length});
    }
    free(copy);
    free(numbered);
    say(out, "--number puts the numbers in.");
}

/* ---- 10: version and revision */

/* Whether the library refuses the version still when this field says what is right. */
static bool still_refused(struct bytes file, size_t start, const char *right) {
    uint8_t *copy = copy_of(file, 0);
    if (!copy || file.length < start + VERSION_SIZE) {
        free(copy);
        return true;
    }
    memmove(copy + start - 1, right, VERSION_SIZE);
    bool still = cwr_refusal(answer_to(copy, file.length)) == BY_VERSION;
    free(copy);
    return still;
}

static void say_wrong(struct out *out, struct refused *refused, const char *name, size_t start, const char *right) {
    bool first = refused->column == 1;
    refused->column = first ? start : refused->column;
    say(out, "%s %s (start %zu) is ", first ? "The" : ", and the", name, start);
    say_quoted(out, text_field(refused->text, start, VERSION_SIZE), VERSION_SIZE);
    say(out, " and should be %s", right);
}

static void explain_version(struct out *out, struct refused *refused, struct bytes file) {
    if (still_refused(file, REVISION_START, "000"))
        say_wrong(out, refused, "version", VERSION_START, "2.2");
    if (still_refused(file, VERSION_START, "2.2"))
        say_wrong(out, refused, "revision", REVISION_START, "000, 001 or 002");
}

/* ---- all of them */

static void explain(struct out *out, struct refused *refused, struct bytes file) {
    if (refused->number == BY_PLACE)
        explain_place(out, refused, file);
    if (refused->ends)
        return;
    if (refused->number == BY_LINE_END)
        explain_line_end(out, refused, file);
    if (refused->number == BY_TYPE)
        explain_type(out, refused);
    if (refused->number == BY_NUMBER || refused->number == BY_TRAILER)
        explain_number(out, refused, file);
    if (refused->number == BY_VERSION)
        explain_version(out, refused, file);
}

static bool is_of_territories(uint32_t refusal) {
    return refusal == TERRITORIES_REFUSED || refusal == CLAIMS_REFUSED;
}

void refused_explain(struct refused *refused, struct bytes file, uint64_t answer, bool with_territories) {
    bool none = is_of_territories(cwr_refusal(answer)) && !with_territories;
    const struct refusal *words = none ? NULL : refusal_words(cwr_refusal(answer));
    *refused = (struct refused){.number = cwr_refusal(answer), .place = cwr_place(answer), .column = 1};
    refused->sentence = words ? words->sentence : "This program has no words for this refusal.";
    refused->has_line = words && words->place == PLACE_LINE;
    if (!refused->has_line)
        return;
    refused->ends = !text_line(file, refused->place, &refused->text);
    size_t length;
    struct out out = {open_memstream(&refused->detail, &length), 0};
    if (!out.to)
        return;
    explain(&out, refused, file);
    fclose(out.to);
}

const char *refused_reason(const struct refused *refused) {
    return refused->detail && refused->detail[0] ? refused->detail : refused->sentence;
}

void refused_free(struct refused *refused) {
    free(refused->detail);
    refused->detail = NULL;
}
