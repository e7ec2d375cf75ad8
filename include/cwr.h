/* The library's calls from C: a CWR 2.2 file is checked, searched for the first
 * work to look at, numbered, or added to a catalogue sheet.
 *
 * What is lent to a call
 * - Every slice is a pointer and a length in bytes. No pointer may be null, not
 *   even with length 0. Slices that are written must not overlap any other.
 * - No call reads or writes outside the slices it was lent, or keeps anything
 *   of them: equal inputs give equal outcomes.
 * - Calls may run in several threads at once, as long as none writes what is
 *   lent to another: between calls nothing is kept, and the library has no
 *   data of its own that is written.
 * - A check takes up to 67 KB of stack, as do a search and a sheet, a check with
 *   a territory table up to 99 KB, and numbering up to 5 KB (measured, by
 *   `bench/run stack`); 128 KB are enough for any call. No memory is allocated.
 * - A record is the text before a CR LF pair; records count from 0.
 * - The tolerance is how far the totals of a work's shares may be off before they
 *   are findings 1 to 3, or 47, in hundredths of a percent: none at all in
 *   cwr_check, 6 in cwr_sheet_add, and the caller's choice in the other three
 *   calls that judge.
 *
 * What is answered by the first six calls
 * - Passed: the number of records, or of a transaction, which is below 2^32.
 * - Refused: the refusal's number times 2^32, plus its place. Then not a byte is
 *   written; only a sheet counts the file, where that is refused by 2 to 10.
 *
 * The refusals, in the order in which they are looked for, each over the whole
 * file before the next; the place is a record unless another is said. The call
 * for a sheet looks for 11 and 12 first, in this order:
 *    1  the tolerance is above 6                                    place 0
 *    2  a table's length does not fit its entries, or it has over
 *       1,024 of them       place: 0 languages, 1 societies, 2 categories
 *    3  the file is over 16,777,216 bytes                           place 0
 *    4  a byte below 32 outside a CR LF pair, or text after the last
 *       pair                             place: lines before the faulty one
 *    5  over 131,072 records                                  place 131,072
 *    6  a type that is unknown, or a length that is not its type's
 *    7  a record out of place; the place is the record count where the file
 *       ends too early
 *    8  a wrong number in a record's prefix, or a wrong GRH group number
 *    9  a wrong number in a GRT or the TRL
 *   10  the HDR's version is not 2.2, or its revision not 000 to 002  place 0
 *   11  a buffer that is to be written is too short                 place 0
 *   12  the sheet is full: it has taken 4,096 files                 place 0
 * and in cwr_check_claims besides, 13 after 2, and 14 last of all:
 *   13  the territory table is not right                            place 0
 *   14  a transaction has more claims than the list has entries  its header
 *
 * The findings, 0 to 48, are listed in docs/FINDINGS.md: the level of each, its
 * edit in CISAC's specification, the default, and what it says in words.
 */
#ifndef CWR_H
#define CWR_H

#include <stddef.h>
#include <stdint.h>

#ifdef __cplusplus
extern "C" {
#endif

#define CWR_MOST_BYTES 16777216u       /* of a file */
#define CWR_MOST_RECORDS 131072u       /* of a file */
#define CWR_MOST_ENTRIES 1024u         /* of a table */
#define CWR_LARGEST_TOLERANCE 6u       /* hundredths of a percent */
#define CWR_MOST_TERRITORIES 512u      /* of a territory table */
#define CWR_TERRITORY_BYTES 6u         /* of an entry */
#define CWR_NO_GROUP 65535u            /* a territory that no group holds */
#define CWR_OVER_BYTES 8u              /* of the first territory that is over */
#define CWR_LANGUAGE_BYTES 2u          /* of an entry */
#define CWR_SOCIETY_BYTES 3u           /* of an entry */
#define CWR_CATEGORY_BYTES 3u          /* of an entry */
#define CWR_FINDING_BYTES 8u           /* of a record's set of findings */
#define CWR_NONE 64u                   /* the lowest finding of an empty set */
#define CWR_NO_TRANSACTION 4294967295u /* there is none to look at */
#define CWR_SHEET_BYTES 664u           /* of a sheet: 83 numbers */
#define CWR_SHEET_FILES 4096u          /* of a sheet, refused ones counted */

/* A record's verdict: what a society would do. */
enum cwr_verdict {
    CWR_ACCEPTED = 0,
    CWR_FIELD_DEFAULTED = 1,
    CWR_RECORD_REJECTED = 2,
    CWR_TRANSACTION_REJECTED = 3,
    CWR_GROUP_REJECTED = 4
};

/* A right: performing, mechanical, synchronisation. */
enum cwr_right { CWR_PR = 0, CWR_MR = 1, CWR_SR = 2 };

/* Checks a file that is to go out: with tolerance 0, so that shares have to be
 * exact, and never answers refusal 1.
 *
 * The three tables are codes one after the other, in any order, repeats and
 * emptiness allowed: languages of 2 bytes, societies of 3, distribution
 * categories of 3.
 *
 * Refused: nothing is written. Passed, with n records: the first n bytes of
 * `verdicts` are the records' verdicts, 0 to 4, and the first 8 n bytes of
 * `findings` their sets of findings, each a 64-bit number, least significant
 * byte first, in which bit k says that finding k holds. Bytes beyond stay as
 * they were. `verdicts` needs a byte a record and `findings` eight, or the file
 * is refused by 11; CWR_MOST_RECORDS entries are always enough. */
uint64_t cwr_check(const uint8_t *file, size_t file_length,
                   const uint8_t *languages, size_t languages_length,
                   const uint8_t *societies, size_t societies_length,
                   const uint8_t *categories, size_t categories_length,
                   uint8_t *verdicts, size_t verdicts_length,
                   uint8_t *findings, size_t findings_length);

/* The same with a tolerance of choice, 0 to 6; one above 6 is refused by 1. With
 * a smaller one each record has all the findings that it has with a larger one,
 * and no smaller verdict. */
uint64_t cwr_check_within(uint64_t tolerance,
                          const uint8_t *file, size_t file_length,
                          const uint8_t *languages, size_t languages_length,
                          const uint8_t *societies, size_t societies_length,
                          const uint8_t *categories, size_t categories_length,
                          uint8_t *verdicts, size_t verdicts_length,
                          uint8_t *findings, size_t findings_length);

/* An entry of the list of claims that cwr_check_claims is lent to work in. */
struct cwr_claim {
    uint32_t party, code, mark, pr, mr, sr;
};

/* The check within a tolerance, with a territory table: findings 47 and 48, about
 * collection shares, beside all others.
 *
 * An entry of the table has six bytes: a code of four, and the position of the
 * group that holds the territory, counted from 0, least significant byte first;
 * CWR_NO_GROUP where none does. A group stands before what it holds. The table
 * is refused by 13 where its length does not fit its entries, it has over 512 of
 * them, a code stands twice, or a position is not an earlier one. An empty table
 * is one: every claim then has finding 48.
 *
 * `claims` is a list of `claims_count` entries, whatever stands in them. It takes
 * the claims (SPT, OPT, SWT, OWT) of one transaction at a time; where one has
 * more, the file is refused by 14. Passed, all its entries are zeros.
 *
 * Passed, the first eight bytes of `over` are two numbers of four bytes, least
 * significant byte first: the number of the first transaction with finding 47,
 * counted from 0 over the whole file, and the position of the first territory
 * that is over in it; eight bytes of 255 where no transaction has 47. A shorter
 * `over` is refused by 11. Refused, nothing is written, the list neither. */
uint64_t cwr_check_claims(uint64_t tolerance,
                          const uint8_t *file, size_t file_length,
                          const uint8_t *languages, size_t languages_length,
                          const uint8_t *societies, size_t societies_length,
                          const uint8_t *categories, size_t categories_length,
                          const uint8_t *territories, size_t territories_length,
                          struct cwr_claim *claims, size_t claims_count,
                          uint8_t *verdicts, size_t verdicts_length,
                          uint8_t *findings, size_t findings_length,
                          uint8_t *over, size_t over_length);

/* The first work to look at, without judging the rest: the first transaction,
 * counted from 0 over the whole file, one of whose own records, header or
 * detail, has a finding of level TR or GR; CWR_NO_TRANSACTION where no record of
 * the file has one. A transaction that falls with its group alone, because of
 * finding 0 on another header, is not named, and levels RR and FR name none.
 *
 * It is what can be read off the findings that cwr_check_within writes. Nothing
 * is written here, so 11 does not occur; refused by 1 to 10 as the check is. */
uint64_t cwr_first_rejected(uint64_t tolerance,
                            const uint8_t *file, size_t file_length,
                            const uint8_t *languages, size_t languages_length,
                            const uint8_t *societies, size_t societies_length,
                            const uint8_t *categories, size_t categories_length);

/* Writes the file with its numbers put in afresh: those of prefixes, of groups
 * and of the trailers. What stood in these positions is not looked at, so it
 * refuses by 3, 4, 5, 6, 7, 10 and 11 alone; 11 where `out` is shorter than the
 * file.
 *
 * Refused: nothing is written. Passed: exactly `file_length` bytes of `out` are
 * written, equal to the file outside the number positions; bytes beyond stay as
 * they were. A file that passes the check comes out as it is. */
uint64_t cwr_number(const uint8_t *file, size_t file_length,
                    uint8_t *out, size_t out_length);

/* Adds a file to a catalogue sheet, which tells of all the files that it has
 * taken together: what the clerk of a client wants of a whole migration.
 *
 * A sheet is CWR_SHEET_BYTES bytes, lent by the caller, all zeros before the
 * first file. It is 83 numbers of 8 bytes, least significant byte first:
 *     0        the files that were taken
 *     1        those of them that were refused
 *     2 to 5   PR: the transactions that miss the full share, the largest
 *              shortfall, the largest excess, the sum of the differences
 *     6 to 9   MR: the same
 *    10 to 13  SR: the same
 *    14 to 77  the records with finding 0, 1, up to 63
 *    78 to 82  the records with verdict 0, 1, up to 4
 * A transaction misses where all its shares of the right, of publishers and
 * writers, come to neither 0 nor exactly 10000, which is all of it; no tolerance
 * is given here. Shares are in hundredths of a percent, and one that is not five
 * digits counts 0. A difference is that from 10000, negative where it is short;
 * the sum is in two's complement. The largest of none is 0. Transactions and
 * records are those of the files that passed, rejected ones and control records
 * among them.
 *
 * The file is checked as cwr_check_within does it with tolerance 6, and the
 * answer is the check's: passed, or refused by 2 to 10, with the same place. No
 * buffers are lent for it. Passed: each number becomes what it is over the list of all
 * files taken, this one among them, in whatever order they came; so the counts
 * by verdict come to the records of the files that passed. Refused by 2 to 10:
 * the numbers 0 and 1 become larger by one, and nothing else is changed.
 *
 * `sheet` needs CWR_SHEET_BYTES bytes, or it is refused by 11; bytes beyond stay
 * as they were. Where its number 0 is CWR_SHEET_FILES or more, it is refused by
 * 12. Both are looked for before anything of the file and the tables, and then
 * nothing is changed.
 *
 * What the numbers become holds of a sheet as these calls left it. From any other
 * bytes the call still ends, and changes nothing but the sheet; a sum there stops
 * at the largest number that it has room for, or the least where it is short. */
uint64_t cwr_sheet_add(uint8_t *sheet, size_t sheet_length,
                       const uint8_t *file, size_t file_length,
                       const uint8_t *languages, size_t languages_length,
                       const uint8_t *societies, size_t societies_length,
                       const uint8_t *categories, size_t categories_length);

/* How many findings a set has, 0 to 64. */
uint32_t cwr_findings_count(uint64_t set);

/* The number of a set's lowest finding; CWR_NONE where it has none. */
uint32_t cwr_findings_lowest(uint64_t set);

/* The length that a record of this one's type has, by its first three bytes; 0
 * where these are no type that is known (refusal 6; AGR, ISW, EXC and ACK are
 * not), or there are fewer. It judges nothing: any bytes may be lent, and any
 * number of them. */
uint32_t cwr_record_length(const uint8_t *record, size_t length);

/* An answer taken apart: the number of the refusal, 0 where passed; */
static inline uint32_t cwr_refusal(uint64_t answer) {
    return (uint32_t)(answer >> 32);
}

/* and the place of a refusal, or the number that was answered where passed. */
static inline uint32_t cwr_place(uint64_t answer) {
    return (uint32_t)(answer & 0xffffffffu);
}

/* Entry k of numbers of eight bytes, least significant byte first: so the check
 * writes its findings, and so a sheet is made. */
static inline uint64_t cwr_entry(const uint8_t *entries, size_t k) {
    const uint8_t *bytes = entries + k * 8;
    uint64_t number = 0;
    for (unsigned at = 8; at > 0; at--)
        number = number << 8 | bytes[at - 1];
    return number;
}

/* The set of findings of one record, as the check wrote it. */
static inline uint64_t cwr_findings_of(const uint8_t *findings, size_t record) {
    return cwr_entry(findings, record);
}

/* Number k of a sheet, 0 to 82; and by what they are: the files taken, and those
 * of them that were refused; */
static inline uint64_t cwr_sheet_number(const uint8_t *sheet, size_t k) {
    return cwr_entry(sheet, k);
}

static inline uint64_t cwr_sheet_files(const uint8_t *sheet) {
    return cwr_sheet_number(sheet, 0);
}

static inline uint64_t cwr_sheet_refused(const uint8_t *sheet) {
    return cwr_sheet_number(sheet, 1);
}

/* of a right, 0 PR, 1 MR, 2 SR: the transactions that miss the full share; and
 * in hundredths of a percent the largest shortfall, the largest excess, and the
 * sum of the differences, negative where it is short; */
static inline uint64_t cwr_sheet_missing(const uint8_t *sheet, size_t right) {
    return cwr_sheet_number(sheet, 2 + 4 * right);
}

static inline uint64_t cwr_sheet_shortfall(const uint8_t *sheet, size_t right) {
    return cwr_sheet_number(sheet, 3 + 4 * right);
}

static inline uint64_t cwr_sheet_excess(const uint8_t *sheet, size_t right) {
    return cwr_sheet_number(sheet, 4 + 4 * right);
}

static inline int64_t cwr_sheet_sum(const uint8_t *sheet, size_t right) {
    uint64_t sum = cwr_sheet_number(sheet, 5 + 4 * right);
    return sum >> 63 == 0 ? (int64_t)sum : -(int64_t)~sum - 1;
}

/* and the records with a finding, 0 to 63, or with a verdict, 0 to 4. */
static inline uint64_t cwr_sheet_finding(const uint8_t *sheet, size_t finding) {
    return cwr_sheet_number(sheet, 14 + finding);
}

static inline uint64_t cwr_sheet_verdict(const uint8_t *sheet, size_t verdict) {
    return cwr_sheet_number(sheet, 78 + verdict);
}

#ifdef __cplusplus
}
#endif

#endif
