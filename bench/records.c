#include "records.h"

_Noreturn void stop(const char *name, const char *words) {
    printf("bench: %s: %s\n", name, words);
    exit(2);
}

uint64_t below(struct file *f, uint64_t n) {
    f->seed ^= f->seed << 13;
    f->seed ^= f->seed >> 7;
    f->seed ^= f->seed << 17;
    return f->seed % n;
}

bool same(const void *a, const void *b) {
    return memcmp(a, b, 3) == 0;
}

uint64_t part_of(uint64_t whole, uint64_t parts, uint64_t part) {
    return whole / parts + (part < whole % parts);
}

/* ---- what stands in a field */

/* One field of a type: its start, as the format counts, its size, and what puts something there. Fields that are not named are blank. */
struct field {
    unsigned start, size;
    void (*put)(struct file *f, const struct field *field, uint8_t *at);
    const char *words; /* what to put, or what to choose from */
    unsigned which;    /* which of several */
};

static void put_digits_of(uint8_t *at, unsigned width, uint64_t n) {
    while (width > 0) {
        at[--width] = (uint8_t)('0' + n % 10);
        n /= 10;
    }
}

static void put_count(struct file *f, const struct field *field, uint8_t *at) {
    put_digits_of(at, field->size, f->counts[field->which]);
}

static void put_words(struct file *f, const struct field *field, uint8_t *at) {
    (void)f;
    memcpy(at, field->words, strlen(field->words));
}

/* One of the words, which are as long as the field. */
static void put_choice(struct file *f, const struct field *field, uint8_t *at) {
    memcpy(at, field->words + below(f, strlen(field->words) / field->size) * field->size, field->size);
}

static void put_digits(struct file *f, const struct field *field, uint8_t *at) {
    for (unsigned i = 0; i < field->size; i++)
        at[i] = (uint8_t)('0' + below(f, 10));
}

/* A few words, rarely with a letter beyond ASCII, and blanks after them. */
static void put_text(struct file *f, const struct field *field, uint8_t *at) {
    static const char letters[] = "AAABCDEEEEFGHIIIJKLMNNOOOPRRSSTTUVWYZ\xC9\xD6";
    unsigned i = 0;
    for (uint64_t words = 1 + below(f, 4); words > 0 && i + 2 < field->size; words--) {
        for (uint64_t letter = 2 + below(f, 8); letter > 0 && i < field->size; letter--)
            at[i++] = (uint8_t)letters[below(f, below(f, 16) == 0 ? sizeof letters - 1 : sizeof letters - 3)];
        i++;
    }
}

/* As often as not. */
static void put_text_or_none(struct file *f, const struct field *field, uint8_t *at) {
    if (below(f, 2) == 0)
        put_text(f, field, at);
}

static void put_date(struct file *f, const struct field *field, uint8_t *at) {
    bool none = below(f, 4) == 0;
    put_digits_of(at, 4, none ? 0 : 1960 + below(f, 64));
    put_digits_of(at + 4, 2, none ? 0 : 1 + below(f, 12));
    put_digits_of(at + 6, field->size - 6, none ? 0 : 1 + below(f, 28));
}

static void put_duration(struct file *f, const struct field *field, uint8_t *at) {
    put_digits_of(at, 2, 0);
    put_digits_of(at + 2, 2, 1 + below(f, 7));
    put_digits_of(at + 4, field->size - 4, below(f, 60));
}

/* As often as not. */
static void put_iswc(struct file *f, const struct field *field, uint8_t *at) {
    uint64_t sum = 1;
    if (below(f, 2) == 0)
        return;
    at[0] = 'T';
    for (unsigned i = 1; i + 1 < field->size; i++) {
        uint64_t digit = below(f, 10);
        at[i] = (uint8_t)('0' + digit);
        sum += i * digit;
    }
    at[field->size - 1] = (uint8_t)('0' + (10 - sum % 10) % 10);
}

static void put_share(struct file *f, const struct field *field, uint8_t *at) {
    put_digits_of(at, field->size, f->shares[field->which]);
}

/* What is collected in a territory: as much as is owned, but no share of the work. */
static void put_claim(struct file *f, const struct field *field, uint8_t *at) {
    put_share(f, field, at);
}

static void put_mark(struct file *f, const struct field *field, uint8_t *at) {
    memset(at, f->excludes ? 'E' : 'I', field->size);
}

static void put_territory(struct file *f, const struct field *field, uint8_t *at) {
    if (f->territory)
        memcpy(at, f->territory, field->size);
    else
        put_choice(f, field, at);
}

static void put_chain(struct file *f, const struct field *field, uint8_t *at) {
    put_digits_of(at, field->size, f->chain);
}

static void put_publisher(struct file *f, const struct field *field, uint8_t *at) {
    at[0] = 'P';
    put_digits_of(at + 1, field->size - 1, f->publisher);
}

static void put_writer(struct file *f, const struct field *field, uint8_t *at) {
    at[0] = 'W';
    put_digits_of(at + 1, field->size - 1, f->writer);
}

static void put_role(struct file *f, const struct field *field, uint8_t *at) {
    memcpy(at, f->role, field->size);
}

static void put_relation(struct file *f, const struct field *field, uint8_t *at) {
    memcpy(at, f->relation, field->size);
}

static void put_version(struct file *f, const struct field *field, uint8_t *at) {
    memcpy(at, f->version, field->size);
}

static void put_transaction_type(struct file *f, const struct field *field, uint8_t *at) {
    memcpy(at, f->transaction_type, field->size);
}

/* ---- the codes that are looked up */

static bool is_blank(const uint8_t *bytes, size_t length) {
    for (size_t i = 0; i < length; i++)
        if (bytes[i] != ' ')
            return false;
    return true;
}

bool is_in(const struct codes *table, const uint8_t *code, size_t size) {
    for (size_t at = 0; at < table->length; at += size)
        if (memcmp(table->bytes + at, code, size) == 0)
            return true;
    return false;
}

/* One of the codes that the file asks for; nobody looks it up. */
static void put_code(struct file *f, const struct field *field, uint8_t *at) {
    const struct codes *asked = &f->asked[field->which];
    memcpy(at, asked->bytes + below(f, asked->length / field->size) * field->size, field->size);
}

/* The same, and it is looked up: what is found where it is not in the table. */
static void put_looked_up(struct file *f, const struct field *field, uint8_t *at) {
    static const unsigned findings[TABLES] = {17, 36, 21};
    put_code(f, field, at);
    bool needed = field->which == CATEGORIES;
    if ((needed || !is_blank(at, field->size)) && !is_in(&f->tables[field->which], at, field->size))
        mark(f, f->counts[RECORDS] - 1, findings[field->which]);
}

/* ---- the types, with their fields */

static const struct field prefix[] = {
    {4,  8, put_count, 0, TRANSACTION},
    {12, 8, put_count, 0, DETAIL     }
};

static const struct field hdr[] = {
    {4,   2,  put_words, "PB",                 0},
    {6,   9,  put_words, "000000101",          0},
    {15,  45, put_words, "LANTERN QUAY MUSIC", 0},
    {60,  5,  put_words, "01.10",              0},
    {65,  8,  put_words, "20240112",           0},
    {73,  6,  put_words, "043000",             0},
    {79,  8,  put_words, "20240112",           0},
    {102, 6,  put_words, "2.2002",             0},
    {108, 30, put_words, "NIGHTLY OUTPUT",     0},
    {138, 30, put_words, "1",                  0},
};
static const struct field grh[] = {
    {4,  3,  put_transaction_type, 0,            0     },
    {7,  5,  put_count,            0,            GROUPS},
    {12, 5,  put_words,            "02.20",      0     },
    {17, 10, put_words,            "0000000001", 0     },
};
static const struct field grt[] = {
    {4,  5, put_count, 0, GROUPS            },
    {9,  8, put_count, 0, GROUP_TRANSACTIONS},
    {17, 8, put_count, 0, GROUP_RECORDS     }
};
static const struct field trl[] = {
    {4,  5, put_count, 0, GROUPS      },
    {9,  8, put_count, 0, TRANSACTIONS},
    {17, 8, put_count, 0, RECORDS     }
};

static const struct field nwr[] = {
    {20,  60, put_text,         0,     0         },
    {80,  2,  put_looked_up,    0,     LANGUAGES },
    {82,  10, put_digits,       0,     0         },
    {96,  11, put_iswc,         0,     0         },
    {107, 8,  put_date,         0,     0         },
    {127, 3,  put_looked_up,    0,     CATEGORIES},
    {130, 6,  put_duration,     0,     0         },
    {136, 1,  put_choice,       "YNU", 0         },
    {137, 3,  put_relation,     0,     0         },
    {143, 3,  put_version,      0,     0         },
    {155, 30, put_text_or_none, 0,     0         },
    {197, 1,  put_words,        "N",   0         },
};
static const struct field spu[] = {
    {20,  2,  put_chain,        0,                             0        },
    {22,  9,  put_publisher,    0,                             0        },
    {31,  45, put_text,         0,                             0        },
    {77,  2,  put_role,         0,                             0        },
    {79,  9,  put_choice,       "         000000000345678901", 0        },
    {88,  11, put_digits,       0,                             0        },
    {99,  14, put_text_or_none, 0,                             0        },
    {113, 3,  put_looked_up,    0,                             SOCIETIES},
    {116, 5,  put_share,        0,                             0        },
    {121, 3,  put_looked_up,    0,                             SOCIETIES},
    {124, 5,  put_share,        0,                             1        },
    {129, 3,  put_looked_up,    0,                             SOCIETIES},
    {132, 5,  put_share,        0,                             2        },
    {138, 1,  put_choice,       " N",                          0        },
    {181, 2,  put_choice,       "  OSOGPS",                    0        },
};
static const struct field npn[] = {
    {20,  2,   put_chain,     0, 0        },
    {22,  9,   put_publisher, 0, 0        },
    {31,  480, put_text,      0, 0        },
    {511, 2,   put_code,      0, LANGUAGES}
};
static const struct field spt[] = {
    {20, 9, put_publisher, 0,              0},
    {35, 5, put_claim,     0,              0},
    {40, 5, put_claim,     0,              1},
    {45, 5, put_claim,     0,              2},
    {50, 1, put_mark,      0,              0},
    {51, 4, put_territory, "213608400826", 0},
    {55, 1, put_words,     "N",            0},
    {56, 3, put_words,     "001",          0},
};
static const struct field swr[] = {
    {20,  9,  put_writer, 0,                    0        },
    {29,  45, put_text,   0,                    0        },
    {74,  30, put_text,   0,                    0        },
    {105, 2,  put_role,   0,                    0        },
    {107, 9,  put_choice, "         000000000", 0        },
    {116, 11, put_digits, 0,                    0        },
    {127, 3,  put_code,   0,                    SOCIETIES},
    {130, 5,  put_share,  0,                    0        },
    {135, 3,  put_code,   0,                    SOCIETIES},
    {138, 5,  put_share,  0,                    1        },
    {143, 3,  put_code,   0,                    SOCIETIES},
    {146, 5,  put_share,  0,                    2        },
    {152, 1,  put_choice, " N",                 0        },
};
static const struct field swt[] = {
    {20, 9, put_writer,    0,              0},
    {29, 5, put_claim,     0,              0},
    {34, 5, put_claim,     0,              1},
    {39, 5, put_claim,     0,              2},
    {44, 1, put_mark,      0,              0},
    {45, 4, put_territory, "213608400826", 0},
    {49, 1, put_words,     "N",            0},
    {50, 3, put_words,     "001",          0},
};
static const struct field pwr[] = {
    {20,  9,  put_publisher,    0,    0},
    {29,  45, put_text,         0,    0},
    {74,  14, put_text_or_none, 0,    0},
    {102, 9,  put_writer,       0,    0},
    {111, 2,  put_words,        "01", 0},
};
static const struct field alt[] = {
    {20, 60, put_text,   0,                            0        },
    {80, 2,  put_choice, "ATTEFTITOTTTPAATRTETOLALAT", 0        },
    {82, 2,  put_code,   0,                            LANGUAGES}
};
static const struct field ewt[] = {
    {20,  60, put_text,         0, 0        },
    {80,  11, put_iswc,         0, 0        },
    {91,  2,  put_code,         0, LANGUAGES},
    {93,  45, put_text,         0, 0        },
    {138, 30, put_text,         0, 0        },
    {168, 60, put_text_or_none, 0, 0        },
    {228, 11, put_digits,       0, 0        },
};
static const struct field per[] = {
    {20, 45, put_text,         0, 0},
    {65, 30, put_text_or_none, 0, 0},
    {95, 11, put_digits,       0, 0}
};
static const struct field rec[] = {
    {20,  8,  put_date,         0,                          0},
    {88,  6,  put_duration,     0,                          0},
    {99,  60, put_text,         0,                          0},
    {159, 60, put_text,         0,                          0},
    {219, 18, put_text_or_none, 0,                          0},
    {237, 13, put_digits,       0,                          0},
    {250, 12, put_choice,       "            GBLQM2300017", 0},
    {262, 2,  put_words,        "AD",                       0},
    {264, 3,  put_choice,       "   CDMDIG",                0},
    {267, 60, put_text,         0,                          0},
    {327, 60, put_text_or_none, 0,                          0},
    {387, 60, put_text,         0,                          0},
    {447, 60, put_text_or_none, 0,                          0},
    {527, 10, put_digits,       0,                          0},
};
static const struct field orn[] = {
    {20,  3,  put_choice,       "FILTELLIBRADVID", 0},
    {23,  60, put_text,         0,                 0},
    {102, 60, put_text_or_none, 0,                 0},
    {188, 12, put_digits,       0,                 0},
    {200, 60, put_text_or_none, 0,                 0},
    {260, 4,  put_digits,       0,                 0},
    {280, 4,  put_choice,       "201920212023",    0},
};
static const struct field ins[] = {
    {20, 3,  put_words, "004", 0},
    {26, 50, put_text,  0,     0}
};
static const struct field ind[] = {
    {20, 3, put_choice, "VLNVLACLOFLTOBO", 0},
    {23, 3, put_words,  "001",             0}
};
static const struct field com[] = {
    {20,  60, put_text,     0, 0},
    {80,  11, put_iswc,     0, 0},
    {91,  10, put_digits,   0, 0},
    {105, 6,  put_duration, 0, 0},
    {111, 45, put_text,     0, 0},
    {156, 30, put_text,     0, 0},
    {186, 11, put_digits,   0, 0},
};
static const struct field xrf[] = {
    {20, 3,  put_code,   0,          SOCIETIES},
    {23, 10, put_digits, 0,          0        },
    {37, 2,  put_choice, "WYRYPYVY", 0        }
};

/* Where a type stands in a file. */
enum place { FIRST, OPENS, HEADER, DETAILS, CLOSES, LAST };

#define FIELDS(list) list, sizeof list / sizeof list[0]

static const struct type {
    char name[4];
    unsigned length;
    enum place place;
    const struct field *fields;
    size_t count;
} types[] = {
    {"HDR", 167, FIRST,   FIELDS(hdr)},
    {"GRH", 28,  OPENS,   FIELDS(grh)},
    {"GRT", 37,  CLOSES,  FIELDS(grt)},
    {"TRL", 24,  LAST,    FIELDS(trl)},
    {"NWR", 260, HEADER,  FIELDS(nwr)},
    {"REV", 260, HEADER,  FIELDS(nwr)},
    {"SPU", 183, DETAILS, FIELDS(spu)},
    {"OPU", 183, DETAILS, FIELDS(spu)},
    {"NPN", 512, DETAILS, FIELDS(npn)},
    {"SPT", 58,  DETAILS, FIELDS(spt)},
    {"SWR", 180, DETAILS, FIELDS(swr)},
    {"OWR", 180, DETAILS, FIELDS(swr)},
    {"SWT", 52,  DETAILS, FIELDS(swt)},
    {"PWR", 112, DETAILS, FIELDS(pwr)},
    {"ALT", 83,  DETAILS, FIELDS(alt)},
    {"EWT", 364, DETAILS, FIELDS(ewt)},
    {"VER", 364, DETAILS, FIELDS(ewt)},
    {"PER", 118, DETAILS, FIELDS(per)},
    {"REC", 540, DETAILS, FIELDS(rec)},
    {"ORN", 348, DETAILS, FIELDS(orn)},
    {"INS", 75,  DETAILS, FIELDS(ins)},
    {"IND", 25,  DETAILS, FIELDS(ind)},
    {"COM", 308, DETAILS, FIELDS(com)},
    {"XRF", 38,  DETAILS, FIELDS(xrf)},
};

static const struct type *type_of(const void *name) {
    for (size_t i = 0; i < sizeof types / sizeof types[0]; i++)
        if (same(types[i].name, name))
            return &types[i];
    stop("bench", "a type that has no row");
}

static bool has_prefix(const struct type *type) {
    return type->place == HEADER || type->place == DETAILS;
}

size_t length_at(const uint8_t *record) {
    return type_of(record)->length;
}

/* ---- a record */

static void begin_transaction(struct file *f) {
    f->transaction_at = f->length;
    f->transaction_record = f->counts[RECORDS];
}

/* One record more of that place is counted. */
static void count(struct file *f, enum place place) {
    uint64_t *counts = f->counts;
    if (place == OPENS) {
        counts[GROUPS]++;
        counts[GROUP_TRANSACTIONS] = counts[GROUP_RECORDS] = 0;
    } else if (place == HEADER) {
        begin_transaction(f);
        counts[TRANSACTION] = counts[GROUP_TRANSACTIONS]++;
        counts[TRANSACTIONS]++;
        counts[DETAIL] = 0;
    } else if (place == DETAILS) {
        counts[DETAIL]++;
    }
    counts[GROUP_RECORDS]++;
    counts[RECORDS]++;
}

static void put_fields(struct file *f, const struct field *fields, size_t many, uint8_t *record) {
    for (size_t i = 0; i < many; i++)
        fields[i].put(f, &fields[i], record + fields[i].start - 1);
}

uint8_t *add(struct file *f, const char *name) {
    const struct type *type = type_of(name);
    uint8_t *record = f->bytes + f->length;
    if (f->length + type->length + 2 > CWR_MOST_BYTES || f->counts[RECORDS] == CWR_MOST_RECORDS)
        stop(f->name, "the file is longer than a file may be");
    count(f, type->place);
    memset(record, ' ', type->length);
    memcpy(record, type->name, 3);
    if (has_prefix(type))
        put_fields(f, FIELDS(prefix), record);
    put_fields(f, type->fields, type->count, record);
    record[type->length] = '\r';
    record[type->length + 1] = '\n';
    f->length += type->length + 2;
    return record;
}

static void wipe(const struct field *fields, size_t many, uint8_t *record) {
    for (size_t i = 0; i < many; i++)
        if (fields[i].put == put_count)
            memset(record + fields[i].start - 1, '0', fields[i].size);
}

uint8_t *unnumbered(const struct file *f) {
    uint8_t *bytes = malloc(f->length);
    if (!bytes)
        stop(f->name, "no memory");
    memcpy(bytes, f->bytes, f->length);
    for (size_t at = 0; at < f->length;) {
        const struct type *type = type_of(bytes + at);
        if (has_prefix(type))
            wipe(FIELDS(prefix), bytes + at);
        wipe(type->fields, type->count, bytes + at);
        at += type->length + 2;
    }
    return bytes;
}

/* ---- what is right for it */

/* The level of each finding, from 0: what a society would do. */
static const char levels[] = "43333333333333333331133123333333311111331332211";

void mark(struct file *f, size_t record, unsigned finding) {
    f->findings[record * CWR_FINDING_BYTES + finding / 8] |= (uint8_t)(1u << finding % 8);
}

/* The largest level of the findings on a record. */
static uint8_t own_level(const struct file *f, size_t record) {
    uint64_t set = cwr_findings_of(f->findings, record);
    uint8_t most = 0;
    for (unsigned k = 0; set >> k != 0; k++) {
        uint8_t level = (uint8_t)(levels[k] - '0');
        if ((set >> k & 1) != 0 && level > most)
            most = level;
    }
    return most;
}

/* The transaction has a TR or GR finding of its own; the search answers the first that has. */
static void note_rejected(struct file *f) {
    if (f->search == CWR_NO_TRANSACTION)
        f->search = f->counts[TRANSACTIONS] - 1;
}

/* The number that five digits write; anything else counts nothing. */
static uint64_t share_at(const uint8_t *at, unsigned size) {
    uint64_t number = 0;
    for (unsigned i = 0; i < size; i++) {
        if (at[i] < '0' || at[i] > '9')
            return 0;
        number = number * 10 + (uint64_t)(at[i] - '0');
    }
    return number;
}

/* Of a publisher or writer; no other record has a share of the work. */
static void add_shares(const struct type *type, const uint8_t *record, uint64_t totals[RIGHTS]) {
    for (size_t i = 0; i < type->count; i++)
        if (type->fields[i].put == put_share)
            totals[type->fields[i].which] += share_at(record + type->fields[i].start - 1, type->fields[i].size);
}

/* A transaction whose shares of the right come to neither nothing nor all. */
static void note_missing(uint64_t *of_right, uint64_t total) {
    uint64_t shortfall = total < WHOLE ? WHOLE - total : 0, excess = total > WHOLE ? total - WHOLE : 0;
    of_right[MISSING]++;
    if (shortfall > of_right[SHORTFALL])
        of_right[SHORTFALL] = shortfall;
    if (excess > of_right[EXCESS])
        of_right[EXCESS] = excess;
    of_right[DIFFERENCES] += total - WHOLE;
}

static void note_shares(struct file *f) {
    uint64_t totals[RIGHTS] = {0};
    for (size_t at = f->transaction_at; at < f->length; at += length_at(f->bytes + at) + 2)
        add_shares(type_of(f->bytes + at), f->bytes + at, totals);
    for (size_t right = 0; right < RIGHTS; right++)
        if (totals[right] != 0 && totals[right] != WHOLE)
            note_missing(&f->sheet[BY_RIGHT + right * OF_A_RIGHT], totals[right]);
}

void judge(struct file *f) {
    uint8_t most = 0;
    note_shares(f);
    for (size_t i = f->transaction_record; i < f->counts[RECORDS]; i++) {
        f->verdicts[i] = own_level(f, i);
        if (f->verdicts[i] > most)
            most = f->verdicts[i];
    }
    if (most >= CWR_TRANSACTION_REJECTED)
        note_rejected(f);
    if (most == CWR_TRANSACTION_REJECTED)
        memset(f->verdicts + f->transaction_record, most, f->counts[RECORDS] - f->transaction_record);
}
