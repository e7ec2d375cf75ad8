/* The driver: holds the library and answers requests read from standard input
 * on standard output; the form of both stands in src/calls.rs. Built twice:
 * with PROBE defined it holds the archive of the probe, else the library's
 * own, since the two need not go into one program.
 *
 * No header is included, so that it can be compiled with those of no machine:
 * what it needs is declared here. It supposes 32-bit int, 64-bit long and
 * pointers, and the constants of Linux. */

typedef unsigned char u8;
typedef unsigned int u32;
typedef unsigned long long u64;
typedef unsigned long size;

_Static_assert(sizeof(u32) == 4 && sizeof(u64) == 8, "sizes of numbers");
_Static_assert(sizeof(size) == 8 && sizeof(void *) == 8, "sizes of pointers");

long read(int from, void *bytes, size length);
long write(int to, const void *bytes, size length);
void *mmap(void *at, size length, int access, int flags, int file, long offset);
int mprotect(void *at, size length, int access);
int munmap(void *at, size length);
_Noreturn void exit(int status);

enum { NO_ACCESS = 0, READ_AND_WRITE = 3, PRIVATE_AND_ANONYMOUS = 0x22 };

/* Reads this many bytes; 0 where the input ends before the first. */
static int get(u8 *bytes, size length) {
    size done = 0;
    while (done < length) {
        long some = read(0, bytes + done, length - done);
        if (some == 0 && done == 0)
            return 0;
        if (some <= 0)
            exit(3);
        done += (size)some;
    }
    return 1;
}

/* For what must follow once a request has begun. */
static void get_all(u8 *bytes, size length) {
    if (length > 0 && !get(bytes, length))
        exit(3);
}

static void put(const u8 *bytes, size length) {
    while (length > 0) {
        long some = write(1, bytes, length);
        if (some <= 0)
            exit(3);
        bytes += some;
        length -= (size)some;
    }
}

static u64 number(const u8 *bytes, int length) {
    u64 value = 0;
    for (int at = length - 1; at >= 0; at--)
        value = value << 8 | bytes[at];
    return value;
}

static void store(u8 *bytes, u64 value, int length) {
    for (int at = 0; at < length; at++)
        bytes[at] = (u8)(value >> (8 * at));
}

/* A part of the request, in memory of its own. */
struct part {
    u8 *bytes;
    size length;
    u8 *mapped;
    size mapped_length;
};

/* Where the part lies: the values of Guard in src/calls.rs. */
enum { ANYWHERE = 0, BEFORE_AN_EDGE = 1, AFTER_AN_EDGE = 2 };

/* A multiple of every size that a page has. */
#define EDGE ((size)65536)

/* Room for a part. Without a guard it still stands alone, so that a long way
 * outside is noticed. With one, any byte outside on that side kills us. */
static void place(struct part *part, u64 guard) {
    size room = (part->length + EDGE - 1) / EDGE * EDGE;
    part->mapped_length = room + 3 * EDGE;
    part->mapped = mmap(0, part->mapped_length, READ_AND_WRITE, PRIVATE_AND_ANONYMOUS, -1, 0);
    if ((long)part->mapped == -1)
        exit(3);
    /* An edge, the room, an edge. */
    size first = ((size)part->mapped + EDGE - 1) / EDGE * EDGE;
    u8 *begin = (u8 *)first + EDGE;
    part->bytes = guard == BEFORE_AN_EDGE ? begin + (room - part->length) : begin;
    if (guard != ANYWHERE &&
        (mprotect(begin - EDGE, EDGE, NO_ACCESS) || mprotect(begin + room, EDGE, NO_ACCESS)))
        exit(3);
}

static void release(struct part *part) {
    if (munmap(part->mapped, part->mapped_length))
        exit(3);
}

/* The parts in the order in which they come: those that are read, then the
 * buffers. */
enum {
    THE_FILE,
    LANGUAGES,
    SOCIETIES,
    CATEGORIES,
    TERRITORIES,
    FIRST,
    SECOND,
    CLAIMS,
    OVER,
    PARTS
};

/* In the languages' place, where records are lent one by one. */
enum { LENGTHS = LANGUAGES };

/* A sum over the lent parts, to see that they stay as they are; of eight bytes
 * at a time, for the large files' sake. */
static u64 sum(const struct part *parts) {
    u64 value = 0;
    for (int which = THE_FILE; which < FIRST; which++) {
        const u8 *bytes = parts[which].bytes;
        for (size left = parts[which].length; left > 0;) {
            u64 some = 0;
            int length = left < 8 ? (int)left : 8;
            __builtin_memcpy(&some, bytes, (size)length);
            value = (value ^ some) * 0x100000001b3;
            bytes += length;
            left -= (size)length;
        }
    }
    return value;
}

/* The library under test. Packed: refusal number times 2^32 plus place, or
 * the number of records, or of the first transaction to look at. */
#ifdef PROBE
u64 probe_structure(const u8 *file, size len);
u64 probe_groups(const u8 *file, size len);
u64 probe_transactions(const u8 *file, size len);
u64 probe_number(const u8 *file, size len, u8 *out, size out_len);

static void call(u8 letter, u64 value, u64 guard, struct part *parts, u64 *answer) {
    const u8 *file = parts[THE_FILE].bytes;
    size length = parts[THE_FILE].length;
    (void)value;
    (void)guard;
    if (letter == 's') {
        answer[0] = probe_structure(file, length);
        answer[1] = probe_groups(file, length);
        answer[2] = probe_transactions(file, length);
    } else if (letter == 'k') {
        struct part *out = &parts[FIRST];
        answer[0] = probe_number(file, length, out->bytes, out->length);
        /* Passed with too short a buffer would be a fault; not ours. */
        if (answer[0] >> 32 == 0 && out->length >= length) {
            answer[1] = probe_groups(out->bytes, length);
            answer[2] = probe_transactions(out->bytes, length);
        }
    } else {
        exit(3);
    }
}
#else
u64 cwr_check(const u8 *file, size file_len, const u8 *languages, size languages_len,
              const u8 *societies, size societies_len, const u8 *categories, size categories_len,
              u8 *verdicts, size verdicts_len, u8 *findings, size findings_len);
u64 cwr_check_within(u64 tolerance, const u8 *file, size file_len, const u8 *languages,
                     size languages_len, const u8 *societies, size societies_len,
                     const u8 *categories, size categories_len, u8 *verdicts, size verdicts_len,
                     u8 *findings, size findings_len);
struct cwr_claim {
    u32 party, code, mark, pr, mr, sr;
};
_Static_assert(sizeof(struct cwr_claim) == 24, "size of a claim");
u64 cwr_check_claims(u64 tolerance, const u8 *file, size file_len, const u8 *languages,
                     size languages_len, const u8 *societies, size societies_len,
                     const u8 *categories, size categories_len, const u8 *territories,
                     size territories_len, struct cwr_claim *claims, size claims_count,
                     u8 *verdicts, size verdicts_len, u8 *findings, size findings_len, u8 *over,
                     size over_len);
u64 cwr_number(const u8 *file, size len, u8 *out, size out_len);
u32 cwr_findings_count(u64 set);
u32 cwr_findings_lowest(u64 set);
u32 cwr_record_length(const u8 *record, size length);
u64 cwr_first_rejected(u64 tolerance, const u8 *file, size file_len, const u8 *languages,
                       size languages_len, const u8 *societies, size societies_len,
                       const u8 *categories, size categories_len);
u64 cwr_sheet_add(u8 *sheet, size sheet_len, const u8 *file, size file_len, const u8 *languages,
                  size languages_len, const u8 *societies, size societies_len,
                  const u8 *categories, size categories_len);

/* Lends the file's records one by one; the lengths of their types go to the
 * first buffer. The records lie in one room in turn, each with its begin or its
 * end at the edge. What it then holds is taken back, for the sum's sake. */
static u64 each_record(struct part *parts, u64 guard) {
    const u8 *lengths = parts[LENGTHS].bytes;
    u64 records = parts[LENGTHS].length / 4;
    struct part room = {0, 0, 0, 0};
    for (u64 at = 0; at < records; at++) {
        size length = number(lengths + 4 * at, 4);
        if (length > room.length)
            room.length = length;
    }
    place(&room, guard);
    u8 *record = parts[THE_FILE].bytes;
    for (u64 at = 0; at < records; at++) {
        size length = number(lengths + 4 * at, 4);
        u8 *lent = guard == BEFORE_AN_EDGE ? room.bytes + (room.length - length) : room.bytes;
        __builtin_memcpy(lent, record, length);
        store(parts[FIRST].bytes + 4 * at, cwr_record_length(lent, length), 4);
        __builtin_memcpy(record, lent, length);
        record += length;
    }
    release(&room);
    return records;
}

#define LENT(which) parts[which].bytes, parts[which].length

/* The list of claims: whole entries, so that it lies as its entries must, be
 * its begin at an edge or its end. */
static struct cwr_claim *list(const struct part *part) {
    if (part->length % sizeof(struct cwr_claim) != 0)
        exit(3);
    return (void *)part->bytes;
}

static void call(u8 letter, u64 value, u64 guard, struct part *parts, u64 *answer) {
    if (letter == 'c') {
        answer[0] = cwr_check(LENT(THE_FILE), LENT(LANGUAGES), LENT(SOCIETIES), LENT(CATEGORIES),
                              LENT(FIRST), LENT(SECOND));
    } else if (letter == 'w') {
        answer[0] = cwr_check_within(value, LENT(THE_FILE), LENT(LANGUAGES), LENT(SOCIETIES),
                                     LENT(CATEGORIES), LENT(FIRST), LENT(SECOND));
    } else if (letter == 'm') {
        answer[0] = cwr_check_claims(value, LENT(THE_FILE), LENT(LANGUAGES), LENT(SOCIETIES),
                                     LENT(CATEGORIES), LENT(TERRITORIES), list(&parts[CLAIMS]),
                                     parts[CLAIMS].length / sizeof(struct cwr_claim), LENT(FIRST),
                                     LENT(SECOND), LENT(OVER));
    } else if (letter == 'n') {
        answer[0] = cwr_number(LENT(THE_FILE), LENT(FIRST));
    } else if (letter == 'b') {
        answer[0] = cwr_findings_count(value);
        answer[1] = cwr_findings_lowest(value);
    } else if (letter == 'r') {
        answer[0] = each_record(parts, guard);
    } else if (letter == 'f') {
        answer[0] = cwr_first_rejected(value, LENT(THE_FILE), LENT(LANGUAGES), LENT(SOCIETIES),
                                       LENT(CATEGORIES));
    } else if (letter == 'h') {
        answer[0] = cwr_sheet_add(LENT(FIRST), LENT(THE_FILE), LENT(LANGUAGES), LENT(SOCIETIES),
                                  LENT(CATEGORIES));
    } else {
        exit(3);
    }
}
#endif

int main(void) {
    u8 head[10 + 4 * PARTS];
    while (get(head, 1)) {
        get_all(head + 1, sizeof head - 1);
        struct part parts[PARTS];
        for (int which = 0; which < PARTS; which++) {
            parts[which].length = number(head + 10 + 4 * which, 4);
            place(&parts[which], head[1]);
            get_all(parts[which].bytes, parts[which].length);
        }

        u64 before = sum(parts);
        u64 answer[3] = {0, 0, 0};
        call(head[0], number(head + 2, 8), head[1], parts, answer);

        u8 reply[25];
        for (int which = 0; which < 3; which++)
            store(reply + 8 * which, answer[which], 8);
        reply[24] = sum(parts) != before;
        put(reply, sizeof reply);
        for (int which = FIRST; which < PARTS; which++)
            put(parts[which].bytes, parts[which].length);
        for (int which = 0; which < PARTS; which++)
            release(&parts[which]);
    }
    return 0;
}
