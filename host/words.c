#include "words.h"

#include <string.h>

enum { FR = 1, RR = 2, TR = 3, GR = 4 };

/* A field, as name, start and size: told with what is right, or for the others' sake. */
#define WRONG(right, ...) {__VA_ARGS__, right, NULL, false, false, false}
#define BESIDE(...) {__VA_ARGS__, NULL, NULL, false, false, false}
/* Of these, the one or the other is wrong. */
#define ONE_OF(right, neutral, ...) {__VA_ARGS__, right, neutral, false, false, false}
#define ONE_OF_CLAIM(right, neutral, ...) {__VA_ARGS__, right, neutral, false, true, false}

#define NO_FIELD {NULL, 0, 0, NULL, NULL, false, false, false}
#define GROUP_FIELD {"type of its group, in the GRH", 4, 3, NULL, NULL, true, false, false}
#define TERRITORY_FIELD {"territory", 51, 4, "a code of the territory table", "2136", false, true, true}
#define CATEGORY "distribution category", 127, 3
#define DURATION "duration", 130, 6
#define VERSION "version type", 143, 3
#define SEQUENCE "publisher sequence number", 20, 2
#define PUBLISHER "publisher name", 31, 45
#define UNKNOWN "unknown indicator", 76, 1
#define PUBLISHER_TYPE "publisher type", 77, 2
#define DESIGNATION "designation", 105, 2
#define SHARE(right, name, start) ONE_OF(right, "00000", name " share", start, 5)
#define CLAIMED(name, start) ONE_OF_CLAIM("five digits", "00000", name " share", start, 5)
#define SOCIETY(name, start) ONE_OF("blank, or a code of societies.txt", "   ", name " society", start, 3)

#define PUBLISHER_TYPES "E, AQ, AM, PA, SE or ES"
#define DESIGNATIONS "CA, A, C, AR, AD, SR, SA, TR or PA"
#define DAY "00000000, or a day: year, month and day, YYYYMMDD"
#define TIME "000000, or a time: hours, minutes and seconds, HHMMSS"
#define UP_TO_HALF "00000 to 05000"
#define UP_TO_ALL "00000 to 10000"

static const struct finding findings[] = {
    [0] = {GR, "T22", NULL,
        "The header's type is not the one that its group was opened for (GRH, start 4).",
        {WRONG("the type of the group", "record type", 1, 3), GROUP_FIELD}, POINTS_NOWHERE, NULL},
    [1] = {TR, "T4", NULL,
        "The publishers own too much: together at most half of PR, all of MR and all of SR, each plus the tolerance (SPU and "
        "OPU, start 116, 124, 132).",
        {NO_FIELD}, POINTS_NOWHERE, publishers_ranges},
    [2] = {TR, "T9", NULL,
        "The writers' shares do not fit: of PR nothing or at least half, and of no right more than all, each within the tolerance "
        "(SWR and OWR, start 130, 138, 146).",
        {NO_FIELD}, POINTS_NOWHERE, writers_ranges},
    [3] = {TR, "T11", NULL,
        "Publishers and writers together own of some right (PR, MR or SR) neither exactly nothing nor, within the tolerance, "
        "all.",
        {NO_FIELD}, POINTS_NOWHERE, together_ranges},
    [4] = {TR, "T12", NULL,
        "The work has no writer: no SWR and no OWR.",
        {NO_FIELD}, POINTS_NOWHERE, NULL},
    [5] = {TR, "T15", NULL,
        "No writer has the designation CA, A or C (SWR and OWR, start 105).",
        {NO_FIELD}, POINTS_NOWHERE, NULL},
    [6] = {TR, "T10", NULL,
        "The work is a modified version, but no writer is AR, AD, SR, SA or TR (SWR and OWR, start 105).",
        {WRONG("ORI, where it is an original; else the writer who has modified it", VERSION)}, POINTS_NOWHERE, NULL},
    [7] = {TR, "T23", NULL,
        "The work is an original version, but a writer is AR, AD, SR, SA or TR (SWR and OWR, start 105).",
        {WRONG("MOD, where it is modified; else another designation of that writer", VERSION)}, POINTS_TO_RECORD, NULL},
    [8] = {TR, "T43", NULL,
        "The records of the work do not follow each other in the order that the format asks for.",
        {NO_FIELD}, POINTS_TO_RECORD, NULL},
    [9] = {TR, "T53", NULL,
        "A work of category SER must name its instruments: there is neither INS nor IND.",
        {WRONG("another category; else an INS or IND with the instruments", CATEGORY)}, POINTS_NOWHERE, NULL},
    [10] = {TR, "T45", NULL,
        "The work is music without words, but a writer is CA, A, SA or TR (SWR and OWR, start 105).",
        {WRONG("another, where it has words; else another designation of that writer", "text music relationship", 137, 3)},
        POINTS_TO_RECORD, NULL},
    [11] = {TR, "T17", NULL,
        "Under one sequence number (start 20) there is more than one original publisher (SPU and OPU, type E, start 77); an OPU "
        "of blank or unknown type counts as E.",
        {NO_FIELD}, POINTS_TO_RECORD, NULL},
    [12] = {TR, "T25", NULL,
        "In a chain (one sequence number, start 20) that begins with an SPU, no original publisher or acquirer (SPU, types E and "
        "AQ) has a share, or there is neither.",
        {NO_FIELD}, POINTS_TO_CHAIN, NULL},
    [13] = {TR, "T16", NULL,
        "A publisher that the submitter does not control (OPU) stands in a chain (one sequence number, start 20) that begins "
        "with one it controls (SPU).",
        {NO_FIELD}, POINTS_TO_RECORD, NULL},
    [14] = {TR, "T26", NULL,
        "A chain (one sequence number, start 20) has an acquirer (SPU, type AQ), but an original publisher before it (type E; an "
        "OPU of blank or unknown type counts as E) has kept a share.",
        {NO_FIELD}, POINTS_TO_RECORD, NULL},
    [15] = {TR, "EWT R1, VER R1", NULL,
        "There is more than one EWT or more than one VER; a work has at most one of each.",
        {NO_FIELD}, POINTS_TO_RECORD, NULL},
    [16] = {TR, "N1", NULL,
        "The title is blank.",
        {WRONG("a title", "title", 20, 60)}, POINTS_NOWHERE, NULL},
    [17] = {TR, "N2", NULL,
        "The language code is not in the table of languages.",
        {WRONG("blank, or a code of languages.txt", "language", 80, 2)}, POINTS_NOWHERE, NULL},
    [18] = {TR, "N3", NULL,
        "The submitter's work number is blank.",
        {WRONG("a work number", "work number", 82, 14)}, POINTS_NOWHERE, NULL},
    [19] = {FR, "N4", "spaces",
        "The ISWC is not a right one: a T and ten digits, of which the last must fit the others.",
        {WRONG("blank, or a T and ten digits of which the last fits the others", "ISWC", 96, 11)}, POINTS_NOWHERE, NULL},
    [20] = {FR, "N5", "zeros",
        "The copyright date is no day of the calendar; eight zeros mean that there is none.",
        {WRONG(DAY, "copyright date", 107, 8)}, POINTS_NOWHERE, NULL},
    [21] = {TR, "N6", NULL,
        "The distribution category is blank or not in the table of categories.",
        {WRONG("a code of categories.txt", CATEGORY)}, POINTS_NOWHERE, NULL},
    [22] = {TR, "N7", NULL,
        "A work of category SER needs a duration above zero, in hours, minutes and seconds.",
        {WRONG("a time above zero: hours, minutes and seconds, HHMMSS", DURATION), BESIDE(CATEGORY)}, POINTS_NOWHERE, NULL},
    [23] = {FR, "N8", "zeros",
        "The duration is no time: two digits each for hours, minutes and seconds, the last two at most 59.",
        {WRONG(TIME, DURATION)}, POINTS_NOWHERE, NULL},
    [24] = {RR, "T8", NULL,
        "A record of this type has no place in the registration of a work.",
        {WRONG("no such record", "record type", 1, 3)}, POINTS_NOWHERE, NULL},
    [25] = {TR, "P1", NULL,
        "The sequence number is out of step: the first publisher has 01, each next the same as the one before or one more; after "
        "one that is not two digits none fits.",
        {WRONG("01 for the first publisher, then the number of the one before or one more", SEQUENCE)}, POINTS_NOWHERE, NULL},
    [26] = {TR, "P2", NULL,
        "The publisher's party number is blank.",
        {WRONG("a party number", "party number", 22, 9)}, POINTS_NOWHERE, NULL},
    [27] = {TR, "P4", NULL,
        "The publisher's name is blank; only an OPU may leave it out, with Y for unknown.",
        {WRONG("a name", PUBLISHER), BESIDE(UNKNOWN)}, POINTS_NOWHERE, NULL},
    [28] = {TR, "P5, P6", NULL,
        "The publisher type is none of E, AQ, AM, PA, SE and ES.",
        {WRONG(PUBLISHER_TYPES, PUBLISHER_TYPE)}, POINTS_NOWHERE, NULL},
    [29] = {TR, "P7", NULL,
        "A publisher that the submitter controls cannot be unknown: the indicator must be blank.",
        {WRONG("blank", UNKNOWN)}, POINTS_NOWHERE, NULL},
    [30] = {TR, "P13, P16, P18", NULL,
        "A share is not five digits or is too large: at most 05000 for PR, 10000 for MR and for SR.",
        {SHARE(UP_TO_HALF, "PR", 116), SHARE(UP_TO_ALL, "MR", 124), SHARE(UP_TO_ALL, "SR", 132)}, POINTS_NOWHERE, NULL},
    [31] = {TR, "P19", NULL,
        "A share may stand only with an original publisher (E) or an acquirer (AQ); the type starts at 77.",
        {WRONG("E or AQ; else no share", PUBLISHER_TYPE), SHARE(NULL, "PR", 116), SHARE(NULL, "MR", 124), SHARE(NULL, "SR", 132)},
        POINTS_NOWHERE, NULL},
    [32] = {TR, "P32", NULL,
        "An acquirer (AQ) must come after an original publisher (SPU, type E) with the same sequence number.",
        {WRONG("AQ only after an SPU of type E with the same sequence number", PUBLISHER_TYPE), BESIDE(SEQUENCE)}, POINTS_NOWHERE, NULL},
    [33] = {FR, "P8", "N",
        "The indicator for an unknown publisher is neither Y nor N nor blank.",
        {WRONG("Y, N or blank", UNKNOWN)}, POINTS_NOWHERE, NULL},
    [34] = {FR, "P9", "N",
        "The publisher is marked as unknown and has a name all the same; it is the indicator that is replaced.",
        {WRONG("N or blank; else no name", UNKNOWN), BESIDE(PUBLISHER)}, POINTS_NOWHERE, NULL},
    [35] = {FR, "P28", "E",
        "The publisher type is none of E, AQ, AM, PA, SE and ES.",
        {WRONG(PUBLISHER_TYPES, PUBLISHER_TYPE)}, POINTS_NOWHERE, NULL},
    [36] = {FR, "P12, P15, P17", "spaces",
        "A society code is not in the table of societies.",
        {SOCIETY("PR", 113), SOCIETY("MR", 121), SOCIETY("SR", 129)}, POINTS_NOWHERE, NULL},
    [37] = {FR, "P23", "zeros",
        "The tax number is not nine digits.",
        {WRONG("blank, or nine digits", "tax number", 79, 9)}, POINTS_NOWHERE, NULL},
    [38] = {TR, "W3", NULL,
        "The writer's last name is blank.",
        {WRONG("a last name", "last name", 29, 45)}, POINTS_NOWHERE, NULL},
    [39] = {TR, "W7, W8", NULL,
        "The writer's designation is none of CA, A, C, AR, AD, SR, SA, TR and PA.",
        {WRONG(DESIGNATIONS, DESIGNATION)}, POINTS_NOWHERE, NULL},
    [40] = {FR, "W8", "spaces",
        "The writer's designation is none of CA, A, C, AR, AD, SR, SA, TR and PA.",
        {WRONG("blank, " DESIGNATIONS, DESIGNATION)}, POINTS_NOWHERE, NULL},
    [41] = {TR, "W11, W13, W15", NULL,
        "A share is not five digits or is above 10000.",
        {SHARE(UP_TO_ALL, "PR", 130), SHARE(UP_TO_ALL, "MR", 138), SHARE(UP_TO_ALL, "SR", 146)}, POINTS_NOWHERE, NULL},
    [42] = {TR, "W1", NULL,
        "The writer's party number is blank.",
        {WRONG("a party number", "party number", 20, 9)}, POINTS_NOWHERE, NULL},
    [43] = {RR, "EWT 1, VER 1, PER 1", NULL,
        "The title of the other work (EWT, VER) or the performer's last name (PER) is blank.",
        {WRONG("a title, or a performer's last name", "title or last name", 20, 45)}, POINTS_NOWHERE, NULL},
    [44] = {RR, "REC 1", NULL,
        "The recording has no valid release date, no valid duration and nothing from position 99 on; zeros count as none.",
        {WRONG("a day; else a duration, or text from 99 on", "release date", 20, 8), BESIDE("duration", 88, 6)}, POINTS_NOWHERE, NULL},
    [45] = {FR, "REC 2", "zeros",
        "The release date is no day of the calendar; eight zeros mean that there is none.",
        {WRONG(DAY, "release date", 20, 8)}, POINTS_NOWHERE, NULL},
    [46] = {FR, "REC 3", "zeros",
        "The duration is no time: two digits each for hours, minutes and seconds, the last two at most 59.",
        {WRONG(TIME, "duration", 88, 6)}, POINTS_NOWHERE, NULL},
    [47] = {TR, "T14, T44", NULL,
        "In some territory the collection shares of all parties come to more than all of some right (PR, MR or SR), plus the "
        "tolerance.",
        {NO_FIELD}, POINTS_NOWHERE, NULL},
    [48] = {TR, "SPT 6 to 10, SWT 3 to 7", NULL,
        "A claim's territory is not in the table, its mark is neither I nor E, or a share is not five digits; it is left out of "
        "the totals.",
        {CLAIMED("PR", 35), CLAIMED("MR", 40), CLAIMED("SR", 45), ONE_OF_CLAIM("I or E", "I", "mark", 50, 1), TERRITORY_FIELD},
        POINTS_NOWHERE, NULL},
};

static const struct refusal refusals[] = {
    [1] = {PLACE_NOTHING, "The tolerance is above 6 hundredths of a percent, the largest that is allowed."},
    [2] = {PLACE_TABLE, "A table has more than 1,024 codes, or does not consist of whole codes."},
    [3] = {PLACE_NOTHING, "The file is longer than 16,777,216 bytes."},
    [4] = {PLACE_LINE, "A line holds a character that belongs in no record (below a space), or does not end with CR LF."},
    [5] = {PLACE_LINE, "The file has more than 131,072 records. This is the first that is too many:"},
    [6] = {PLACE_LINE, "The record is of no known type, or its length is not the one of its type."},
    [7] = {PLACE_LINE, "The record may not stand in this place, or the file ends too early."},
    [8] = {PLACE_LINE, "The transaction or record number (start 4 and 12), or in a GRH the group number (start 7), is wrong."},
    [9] = {PLACE_LINE, "The group number (GRT, start 4) or a count in the trailer is wrong."},
    [10] = {PLACE_LINE, "The HDR does not say version 2.2 (start 102) with a revision from 000 to 002 (start 105)."},
    [11] = {PLACE_NOTHING, "This program lent the library too little room; it is a fault of the program."},
    [SHEET_REFUSED] = {PLACE_NOTHING, "The sheet is full: it takes 4,096 files, refused ones counted."},
    [TERRITORIES_REFUSED] = {PLACE_NOTHING, "This program lent the library a territory table that is not right; it is a fault of the program."},
    [CLAIMS_REFUSED] = {PLACE_LINE, "This program lent the library too short a list for the claims of this work; it is a fault of the program."},
};

_Static_assert(sizeof findings / sizeof findings[0] == 49, "findings 0 to 48");
_Static_assert(sizeof refusals / sizeof refusals[0] == 15, "refusals 1 to 14");

size_t field_start(const struct field *field, struct bytes record) {
    return field->of_claim ? claim_start(record, field->start) : field->start;
}

const struct finding *finding_words(uint32_t number) {
    return number < sizeof findings / sizeof findings[0] ? &findings[number] : NULL;
}

const char *finding_sentence(const struct finding *finding) {
    return finding ? finding->sentence : "this program has no words for it";
}

const struct refusal *refusal_words(uint32_t number) {
    return number > 0 && number < sizeof refusals / sizeof refusals[0] ? &refusals[number] : NULL;
}

static const char *const levels[] = {"none", "FR", "RR", "TR", "GR"};

const char *level_name(size_t level) {
    return levels[level];
}

size_t level_named(const char *name) {
    for (size_t level = FR; level <= GR; level++)
        if (strcmp(name, levels[level]) == 0)
            return level;
    return 0;
}

static const struct {
    const char *record, *work;
} verdicts[] = {
    {"accepted", "accepted"},
    {"field defaulted", "accepted with defaults"},
    {"record rejected", "accepted with records left out"},
    {"transaction rejected", "rejected"},
    {"group rejected", "rejected with the group"},
};

const char *verdict_of_record(size_t verdict) {
    return verdicts[verdict].record;
}

const char *verdict_of_work(size_t verdict) {
    return verdicts[verdict].work;
}
