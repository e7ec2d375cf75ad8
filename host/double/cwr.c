/* A double of the library, for host/test alone: it checks nothing and answers what it is told to, so that every path of the host can be
 * taken, those too that no file can bring about.
 *
 *   CWR_DOUBLE_REFUSES "7 3"     every call refuses by 7 at place 3
 *   CWR_DOUBLE_FINDS "1ff"       each record gets this set of findings, in hexadecimal
 *   CWR_DOUBLE_VERDICT "3"       and this verdict
 *   CWR_DOUBLE_FROM "12"         records before this one get neither
 *   CWR_DOUBLE_OVER "2 7"        in work 2 territory 7 is over first, both counted from 0; where it is not told, that is so in no work, or in
 *                                work 0 of territory 0 where each record gets finding 47
 *   CWR_DOUBLE_LEAVES "5"        in entry 5 of the list of claims something is left
 *   CWR_DOUBLE_FIRST "4"         this is the first work to look at, counted from 0; where it is not told, there is none
 *   CWR_DOUBLE_SHEET "2=7 5=-4"  of a sheet, number 2 becomes 7 and number 5 becomes -4 with each file
 *   CWR_DOUBLE_DISAGREES "1"     the sheet's call answers so many records more than the check
 *   CWR_DOUBLE_MISCOUNTS "1"     the answer is this many records too large
 *   CWR_DOUBLE_LENGTH "183"      a record of any type has this length
 *   CWR_DOUBLE_SLEEPS "2"        each check takes so many seconds
 *   CWR_DOUBLE_SPOILS PATH       a byte is added to this file once the host has begun to read
 *   CWR_DOUBLE_STOPS "15"        this signal comes while a file is written
 *   CWR_DOUBLE_UNSYNCED "1"      no folder can be synced
 *
 * Otherwise a file passes with as many records as it has CR LF pairs, all accepted, a sheet counts the files alone, and numbering copies
 * them. There is no cwr_check here, since the host names its tolerance. */
#include "cwr.h"

#include <errno.h>
#include <fcntl.h>
#include <signal.h>
#include <stdbool.h>
#include <stdlib.h>
#include <string.h>
#include <sys/stat.h>
#include <sys/uio.h>
#include <unistd.h>

static uint64_t told(const char *name, int base) {
    const char *words = getenv(name);
    return words ? strtoull(words, NULL, base) : 0;
}

static uint64_t pairs(const uint8_t *file, size_t length) {
    uint64_t count = 0;
    for (size_t i = 1; i < length; i++)
        count += file[i - 1] == '\r' && file[i] == '\n';
    return count;
}

static uint64_t answer(const uint8_t *file, size_t length) {
    const char *refuses = getenv("CWR_DOUBLE_REFUSES");
    if (refuses) {
        char *rest;
        uint64_t number = strtoull(refuses, &rest, 10);
        return number << 32 | strtoull(rest, NULL, 10);
    }
    return pairs(file, length) + told("CWR_DOUBLE_MISCOUNTS", 10);
}

uint64_t cwr_check_within(uint64_t tolerance, const uint8_t *file, size_t file_length, const uint8_t *languages, size_t languages_length,
                          const uint8_t *societies, size_t societies_length, const uint8_t *categories, size_t categories_length,
                          uint8_t *verdicts, size_t verdicts_length, uint8_t *findings, size_t findings_length) {
    uint64_t answered = answer(file, file_length), set = told("CWR_DOUBLE_FINDS", 16);
    sleep((unsigned)told("CWR_DOUBLE_SLEEPS", 10));
    (void)tolerance, (void)languages, (void)languages_length, (void)societies, (void)societies_length, (void)categories;
    (void)categories_length;
    uint64_t from = told("CWR_DOUBLE_FROM", 10);
    for (size_t i = 0; answered >> 32 == 0 && i < answered && i < verdicts_length && 8 * i + 8 <= findings_length; i++) {
        verdicts[i] = i < from ? 0 : (uint8_t)told("CWR_DOUBLE_VERDICT", 10);
        for (size_t at = 0; at < 8; at++)
            findings[8 * i + at] = i < from ? 0 : (uint8_t)(set >> (8 * at));
    }
    return answered;
}

static void put_four(uint8_t *bytes, uint64_t number) {
    for (size_t at = 0; at < 4; at++)
        bytes[at] = (uint8_t)(number >> (8 * at));
}

/* The territory table is not looked at, nor is the list of claims but to be cleared. */
uint64_t cwr_check_claims(uint64_t tolerance, const uint8_t *file, size_t file_length, const uint8_t *languages, size_t languages_length,
                          const uint8_t *societies, size_t societies_length, const uint8_t *categories, size_t categories_length,
                          const uint8_t *territories, size_t territories_length, struct cwr_claim *claims, size_t claims_count,
                          uint8_t *verdicts, size_t verdicts_length, uint8_t *findings, size_t findings_length, uint8_t *over,
                          size_t over_length) {
    uint64_t answered = cwr_check_within(tolerance, file, file_length, languages, languages_length, societies, societies_length, categories,
                                         categories_length, verdicts, verdicts_length, findings, findings_length);
    const char *words = getenv("CWR_DOUBLE_OVER"), *left = getenv("CWR_DOUBLE_LEAVES");
    bool any = words || (told("CWR_DOUBLE_FINDS", 16) >> 47 & 1) != 0;
    char *rest = NULL;
    (void)territories, (void)territories_length;
    if (answered >> 32 != 0)
        return answered;
    if (over_length < CWR_OVER_BYTES)
        return 11ull << 32;
    memset(claims, 0, claims_count * sizeof *claims);
    if (left && strtoull(left, NULL, 10) < claims_count)
        claims[strtoull(left, NULL, 10)].sr = 1;
    put_four(over, words ? strtoull(words, &rest, 10) : any ? 0 : CWR_NO_TRANSACTION);
    put_four(over + 4, rest ? strtoull(rest, NULL, 10) : any ? 0 : CWR_NO_TRANSACTION);
    return answered;
}

uint64_t cwr_first_rejected(uint64_t tolerance, const uint8_t *file, size_t file_length, const uint8_t *languages,
                            size_t languages_length, const uint8_t *societies, size_t societies_length, const uint8_t *categories,
                            size_t categories_length) {
    uint64_t answered = answer(file, file_length);
    sleep((unsigned)told("CWR_DOUBLE_SLEEPS", 10));
    (void)tolerance, (void)languages, (void)languages_length, (void)societies, (void)societies_length, (void)categories;
    (void)categories_length;
    if (answered >> 32 != 0)
        return answered;
    return getenv("CWR_DOUBLE_FIRST") ? told("CWR_DOUBLE_FIRST", 10) : CWR_NO_TRANSACTION;
}

static void put(uint8_t *sheet, uint64_t k, uint64_t number) {
    for (size_t at = 0; at < 8; at++)
        sheet[8 * k + at] = (uint8_t)(number >> (8 * at));
}

static void put_told(uint8_t *sheet) {
    const char *words = getenv("CWR_DOUBLE_SHEET");
    for (char *rest; words && strchr(words, '='); words = rest) {
        uint64_t k = strtoull(words, &rest, 10);
        put(sheet, k, strtoull(rest + 1, &rest, 10));
    }
}

uint64_t cwr_sheet_add(uint8_t *sheet, size_t sheet_length, const uint8_t *file, size_t file_length, const uint8_t *languages,
                       size_t languages_length, const uint8_t *societies, size_t societies_length, const uint8_t *categories,
                       size_t categories_length) {
    uint64_t answered = answer(file, file_length);
    (void)languages, (void)languages_length, (void)societies, (void)societies_length, (void)categories, (void)categories_length;
    if (sheet_length < CWR_SHEET_BYTES)
        return 11ull << 32;
    if (cwr_sheet_files(sheet) >= CWR_SHEET_FILES)
        return 12ull << 32;
    put(sheet, 0, cwr_sheet_files(sheet) + 1);
    put(sheet, 1, cwr_sheet_refused(sheet) + (answered >> 32 != 0));
    put_told(sheet);
    return answered + told("CWR_DOUBLE_DISAGREES", 10);
}

uint64_t cwr_number(const uint8_t *file, size_t file_length, uint8_t *out, size_t out_length) {
    uint64_t answered = answer(file, file_length);
    if (answered >> 32 == 0 && file_length <= out_length)
        memmove(out, file, file_length);
    return answered;
}

uint32_t cwr_findings_count(uint64_t set) {
    uint32_t count = 0;
    for (; set != 0; set &= set - 1)
        count++;
    return count;
}

uint32_t cwr_findings_lowest(uint64_t set) {
    uint32_t lowest = 0;
    while (lowest < CWR_NONE && (set >> lowest & 1) == 0)
        lowest++;
    return lowest;
}

uint32_t cwr_record_length(const uint8_t *record, size_t length) {
    (void)record, (void)length;
    return (uint32_t)told("CWR_DOUBLE_LENGTH", 10);
}

/* In the place of the C library's: a signal in the middle of a writing can only be tried where it is sure to come there, and a disk that
 * fails only where there is none. */
int fsync(int file) {
    struct stat found;
    if (getenv("CWR_DOUBLE_STOPS"))
        raise((int)told("CWR_DOUBLE_STOPS", 10));
    if (!getenv("CWR_DOUBLE_UNSYNCED") || fstat(file, &found) != 0 || !S_ISDIR(found.st_mode))
        return 0;
    errno = EIO;
    return -1;
}

static bool is_open_as(int file, const char *path) {
    struct stat open_one, named;
    return fstat(file, &open_one) == 0 && stat(path, &named) == 0 && open_one.st_ino == named.st_ino;
}

/* In the place of the C library's: a file can only be caught changing if it changes between two looks at it. Once, or it would never end. */
ssize_t read(int from, void *bytes, size_t length) {
    static bool done;
    const char *spoiled = getenv("CWR_DOUBLE_SPOILS");
    struct iovec part = {bytes, length};
    if (spoiled && !done && is_open_as(from, spoiled)) {
        int to = open(spoiled, O_WRONLY | O_APPEND);
        done = true;
        if (to >= 0 && write(to, "x", 1) == 1)
            close(to);
    }
    return readv(from, &part, 1);
}
