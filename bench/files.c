#include "files.h"
#include "records.h"

/* ---- the lent tables */

static const char languages[] =
    "AAABAFAKAMANARASAVAYAZBABEBGBHBIBMBNBOBRBSCACECHCOCRCSCUCVCYDADEDVDZEEELENEOESETEUFAFFFIFJFOFRFYGAGDGLGNGUGVHAHEHIHOHRHTHUHYHZIAID"
    "IEIGIIIKIOISITIUJAJVKAKGKIKJKKKLKMKNKOKRKSKUKVKWKYLALBLGLILNLOLTLULVMGMHMIMKMLMNMOMRMSMTMYNANBNDNENGNLNNNONRNVNYOCOJOMOROSPAPIPLPS"
    "PTQURMRNRORURWSASCSDSESGSISKSLSMSNSOSQSRSSSTSUSVSWTATETGTHTITKTLTNTOTRTSTTTWTYUGUKURUZVEVIVOWAWOXHYIYOZAZHZU";
static const char categories[] = "JAZPOPSERUNC";

/* What a catalogue's records ask of them: some codes often, and the field is at times not filled. */
static const char asked_languages[] = "ENENENENENEN        FRFRDEDEESITJASV";
static const char asked_societies[] = "010021035044052058052044052021   074080088";
static const char asked_categories[] = "POPPOPPOPPOPPOPPOPPOPPOPPOPPOPPOPJAZJAZUNCUNCSER";

enum { NUMBERED_SOCIETIES = 250 };

static struct codes words(const char *codes) {
    return (struct codes){(const uint8_t *)codes, strlen(codes)};
}

/* The societies 001 to 250. */
static struct codes societies(void) {
    static uint8_t bytes[NUMBERED_SOCIETIES * CWR_SOCIETY_BYTES];
    for (unsigned n = 1; n <= NUMBERED_SOCIETIES; n++) {
        uint8_t *at = bytes + (n - 1) * CWR_SOCIETY_BYTES;
        at[0] = (uint8_t)('0' + n / 100);
        at[1] = (uint8_t)('0' + n / 10 % 10);
        at[2] = (uint8_t)('0' + n % 10);
    }
    return (struct codes){bytes, sizeof bytes};
}

/* ---- the territory table */

enum { TERRITORY_CODE = 4, USUAL_TERRITORIES = 300, CONTINENTS = 5 };

/* Room for the largest. */
static uint8_t territories[CWR_MOST_TERRITORIES * CWR_TERRITORY_BYTES];

static void put_territory(size_t place, unsigned code, unsigned group) {
    uint8_t *at = territories + place * CWR_TERRITORY_BYTES;
    for (unsigned i = TERRITORY_CODE; i > 0; code /= 10)
        at[--i] = (uint8_t)('0' + code % 10);
    at[TERRITORY_CODE] = (uint8_t)(group & 0xff);
    at[TERRITORY_CODE + 1] = (uint8_t)(group >> 8);
}

static const uint8_t *territory_at(size_t place) {
    return territories + place * CWR_TERRITORY_BYTES;
}

/* The world, its continents, and countries in them, by every third number, among which 840 and 826 are not: they stand last, since the files
 * name them most. */
static void lend_world(struct file *f) {
    put_territory(0, 2136, CWR_NO_GROUP);
    for (unsigned i = 0; i < CONTINENTS; i++)
        put_territory(1 + i, 2100 + i, 0);
    for (unsigned i = 1 + CONTINENTS; i < USUAL_TERRITORIES - 2; i++)
        put_territory(i, 3 * i - 1, 1 + i % CONTINENTS);
    put_territory(USUAL_TERRITORIES - 2, 840, 1);
    put_territory(USUAL_TERRITORIES - 1, 826, 2);
    f->territories = (struct codes){territories, USUAL_TERRITORIES * CWR_TERRITORY_BYTES};
}

/* As many as there may be, none in another. */
static void lend_countries(struct file *f) {
    for (unsigned i = 0; i < CWR_MOST_TERRITORIES; i++)
        put_territory(i, i, CWR_NO_GROUP);
    f->territories = (struct codes){territories, sizeof territories};
}

/* Tables and codes as a catalogue has them. */
static void lend_usual(struct file *f) {
    lend_world(f);
    f->tables[LANGUAGES] = words(languages);
    f->tables[SOCIETIES] = societies();
    f->tables[CATEGORIES] = words(categories);
    f->asked[LANGUAGES] = words(asked_languages);
    f->asked[SOCIETIES] = words(asked_societies);
    f->asked[CATEGORIES] = words(asked_categories);
}

/* ---- a file's frame */

static void open_group(struct file *f, const char *type) {
    f->transaction_type = type;
    add(f, "GRH");
}

static void close_file(struct file *f) {
    add(f, "TRL");
    f->records = f->structure = f->number = f->counts[RECORDS];
    f->right_length = f->length;
}

/* ---- a work as a catalogue has it */

static void share_out(struct file *f, uint64_t pr, uint64_t others, uint64_t parts, uint64_t part) {
    f->shares[0] = part_of(pr, parts, part);
    f->shares[1] = f->shares[2] = part_of(others, parts, part);
}

/* A record of someone with that role, who owns these shares. */
static void add_owner(struct file *f, const char *type, const char *role, uint64_t pr, uint64_t others) {
    f->role = role;
    share_out(f, pr, others, 1, 0);
    add(f, type);
}

/* A publisher of the submitter, now and then with an administrator, who owns nothing. */
static void add_chain(struct file *f) {
    f->publisher = 1 + below(f, 400);
    f->role = "E ";
    add(f, "SPU");
    if (below(f, 24) == 0)
        add(f, "NPN");
    add(f, "SPT");
    if (below(f, 8) != 0)
        return;
    add_owner(f, "SPU", "AM", 0, 0);
    add(f, "SPT");
}

/* The publishers own half of PR and all of MR and SR. */
static void add_publishers(struct file *f) {
    uint64_t own = 1 + below(f, 2), others = below(f, 8) == 0;
    for (f->chain = 1; f->chain <= own; f->chain++) {
        share_out(f, HALF, WHOLE, own + others, f->chain - 1);
        add_chain(f);
    }
    if (others) {
        share_out(f, HALF, WHOLE, own + others, own);
        f->role = "E ";
        add(f, "OPU");
    }
}

/* The writer's part in it: of several, one made the words and one the music; a version has an arranger. */
static const char *role_of(const struct file *f, uint64_t writers, uint64_t writer) {
    if (same(f->version, "MOD") && writer + 1 == writers)
        return "AR";
    if (same(f->relation, "MUS"))
        return "C ";
    if (writers == 1)
        return "CA";
    return writer % 2 == 0 ? "C " : "A ";
}

/* The writers own the other half of PR. */
static void add_writers(struct file *f) {
    uint64_t own = 1 + below(f, 3), others = below(f, 6) == 0;
    own += same(f->version, "MOD") && own + others == 1;
    for (uint64_t i = 0; i < own + others; i++) {
        f->writer = 1 + below(f, 3000);
        f->role = role_of(f, own + others, i);
        share_out(f, HALF, 0, own + others, i);
        add(f, i < own ? "SWR" : "OWR");
        if (i < own) {
            add(f, "SWT");
            add(f, "PWR");
        }
    }
}

static void add_some(struct file *f, const char *type, uint64_t many) {
    for (; many > 0; many--)
        add(f, type);
}

/* One in n works has it. */
static void add_one_in(struct file *f, const char *type, uint64_t n) {
    add_some(f, type, below(f, n) == 0);
}

/* Whether the header's category is SER: it then needs instruments. */
static bool is_serious(const uint8_t *header) {
    return same(header + 126, "SER");
}

/* A work with its publishers, writers, titles, performers, recordings and origin: less than 8,000 bytes. */
static void add_work(struct file *f) {
    f->version = below(f, 8) == 0 ? "MOD" : "ORI";
    f->relation = below(f, 6) == 0 ? "MUS" : "MTX";
    bool serious = is_serious(add(f, f->transaction_type));
    add_publishers(f);
    add_writers(f);
    add_some(f, "ALT", below(f, 3));
    add_one_in(f, "EWT", 40);
    add_some(f, "VER", same(f->version, "MOD"));
    add_some(f, "PER", below(f, 3));
    add_one_in(f, "REC", 2);
    add_one_in(f, "ORN", 3);
    if (serious) {
        add(f, "INS");
        add_some(f, "IND", 4);
    }
    add_one_in(f, "COM", 16);
    add_one_in(f, "XRF", 4);
}

/* ---- a flaw in a work */

/* What is written over a field of the transaction's first record of a type, and what then holds: the finding of that record and at most
 * two of the header. "" is the header. None of them changes another's findings. */
static const struct flaw {
    char type[4];
    unsigned start;
    const char *words;
    unsigned finding, header, also;
} flaws[] = {
    {"",    80,  "QQ",                                            17, 0, 0},
    {"",    82,  "              ",                                18, 0, 0},
    {"",    96,  "T0345246802",                                   19, 0, 0},
    {"",    107, "20231301",                                      20, 0, 0},
    {"",    127, "   ",                                           21, 0, 0},
    {"",    130, "000360",                                        23, 0, 0},
    {"SPU", 22,  "         ",                                     26, 0, 0},
    {"SPU", 79,  "12-345678",                                     37, 0, 0},
    {"SPU", 113, "QQQ",                                           36, 0, 0},
    {"SPU", 116, "00100",                                         0,  3, 0},
    {"OPU", 76,  "X",                                             33, 0, 0},
    {"OPU", 77,  "  ",                                            35, 0, 0},
    {"SWR", 20,  "         ",                                     42, 0, 0},
    {"SWR", 130, "00100",                                         0,  2, 3},
    {"SWR", 138, "0000 ",                                         41, 0, 0},
    {"PER", 20,  "                                             ", 43, 0, 0},
    {"REC", 20,  "20230229",                                      45, 0, 0},
    {"REC", 88,  "      ",                                        46, 0, 0},
};

/* The header is judged otherwise where the category is SER. */
static bool may_have_flaws(const struct file *f) {
    return !is_serious(f->bytes + f->transaction_at);
}

static void put_flaw(struct file *f, const struct flaw *flaw) {
    size_t at = f->transaction_at, record = f->transaction_record;
    while (at < f->length && flaw->type[0] != 0 && !same(f->bytes + at, flaw->type)) {
        at += length_at(f->bytes + at) + 2;
        record++;
    }
    if (at == f->length)
        return;
    memcpy(f->bytes + at + flaw->start - 1, flaw->words, strlen(flaw->words));
    const unsigned found[] = {flaw->finding, flaw->header, flaw->also};
    for (size_t i = 0; i < sizeof found / sizeof found[0]; i++)
        if (found[i] != 0)
            mark(f, i == 0 ? record : f->transaction_record, found[i]);
}

/* One flaw or two. */
static void spoil(struct file *f) {
    if (!may_have_flaws(f))
        return;
    for (uint64_t many = 1 + below(f, 2); many > 0; many--)
        put_flaw(f, &flaws[below(f, sizeof flaws / sizeof flaws[0])]);
}

/* ---- the files */

/* Which works there is something to say of: so many in 1,000; and the first and the last, where they are to have a flaw. */
struct flawed {
    uint64_t in_1000;
    const struct flaw *first, *last;
};

static void spoil_some(struct file *f, const struct flawed *flawed, bool is_last) {
    bool is_first = f->counts[TRANSACTIONS] == 1;
    if (below(f, 1000) < flawed->in_1000)
        spoil(f);
    if (is_first && flawed->first)
        put_flaw(f, flawed->first);
    if (is_last && flawed->last)
        put_flaw(f, flawed->last);
}

/* Groups of 2,000 works, one in four of revisions. */
static void make_works(struct file *f, uint64_t share, struct flawed flawed) {
    size_t most = CWR_MOST_BYTES / share - 12000;
    lend_usual(f);
    while (f->length < most) {
        open_group(f, f->counts[GROUPS] % 4 == 3 ? "REV" : "NWR");
        for (int works = 0; works < 2000 && f->length < most; works++) {
            add_work(f);
            spoil_some(f, &flawed, f->length >= most);
            judge(f);
        }
        add(f, "GRT");
    }
    close_file(f);
}

static void make_right(struct file *f, uint64_t share) {
    make_works(f, share, (struct flawed){0, NULL, NULL});
    for (size_t i = 0; i < f->records * CWR_FINDING_BYTES; i++)
        if (f->findings[i] != 0)
            stop(f->name, "a finding was made in it");
}

static void make_flawed(struct file *f, uint64_t share) {
    make_works(f, share, (struct flawed){30, NULL, NULL});
}

static void expect_rejected(const struct file *f, uint64_t transaction) {
    if (f->search != transaction)
        stop(f->name, "another work is the first rejected one");
}

/* In the first work the record after the header, a publisher, has no party number: the search cannot end earlier. */
static void make_first_rejected(struct file *f, uint64_t share) {
    static const struct flaw no_party = {"SPU", 22, "         ", 26, 0, 0};
    make_works(f, share, (struct flawed){0, &no_party, NULL});
    expect_rejected(f, 0);
}

/* In the last work a writer owns too little, which is found on the header once all details were read: the search cannot end later. The first
 * work has a finding too, but one that rejects nothing. */
static void make_last_rejected(struct file *f, uint64_t share) {
    static const struct flaw wrong_tax = {"SPU", 79, "12-345678", 37, 0, 0}, small_share = {"SWR", 130, "00100", 0, 2, 3};
    make_works(f, share, (struct flawed){0, &wrong_tax, &small_share});
    expect_rejected(f, f->counts[TRANSACTIONS] - 1);
}

/* TRL's count of records is wrong, after all that is right. */
static void make_fault(struct file *f, uint64_t share) {
    make_right(f, share);
    f->right_length = f->length - 3;
    f->bytes[f->right_length] ^= 1;
    f->structure = f->search = (9ull << 32) + f->records - 1;
}

/* The header of an original song, whose publishers are all in one chain. */
static uint8_t *add_song(struct file *f) {
    f->version = "ORI";
    f->relation = "MTX";
    f->chain = 1;
    return add(f, f->transaction_type);
}

/* A song, and a publisher and a writer that own all. */
static void add_plain_work(struct file *f, uint64_t claims) {
    add_song(f);
    add_owner(f, "SPU", "E ", HALF, WHOLE);
    add_some(f, "SPT", claims);
    add_owner(f, "SWR", "CA", HALF, 0);
    add_some(f, "SWT", claims);
}

/* As many records as a file may have, short ones, in transactions of 22. */
static void make_short(struct file *f, uint64_t share) {
    uint64_t most = CWR_MOST_RECORDS / share - 2;
    lend_usual(f);
    open_group(f, "NWR");
    while (f->counts[RECORDS] < most) {
        uint64_t left = most - f->counts[RECORDS];
        add_plain_work(f, 4);
        add_some(f, "ALT", 3);
        add_some(f, "IND", 2);
        add_some(f, "XRF", left < 2 * 22 ? left - 16 : 6);
        judge(f);
    }
    add(f, "GRT");
    close_file(f);
}

/* As many groups as a file may have: the least that a group has is one transaction of one record. Such a work has no writer. */
static void make_groups(struct file *f, uint64_t share) {
    lend_usual(f);
    while (f->counts[RECORDS] + 4 <= CWR_MOST_RECORDS / share) {
        open_group(f, f->counts[GROUPS] % 2 == 0 ? "NWR" : "REV");
        if (is_serious(add_song(f)))
            mark(f, f->transaction_record, 9);
        mark(f, f->transaction_record, 4);
        mark(f, f->transaction_record, 5);
        judge(f);
        add(f, "GRT");
    }
    close_file(f);
}

/* A publisher or a writer that owns nothing, with territories, until there are so many details. */
static void add_parties(struct file *f, const char *party, const char *role, const char *territory, uint64_t details) {
    while (f->counts[DETAIL] + 3 <= details) {
        add_owner(f, party, role, 0, 0);
        add_some(f, territory, 2);
    }
}

/* One transaction with as many details as a file may have. */
static void make_one(struct file *f, uint64_t share) {
    uint64_t most = CWR_MOST_RECORDS / share - 5;
    lend_usual(f);
    open_group(f, "NWR");
    add_song(f);
    add_owner(f, "SPU", "E ", HALF, WHOLE);
    add_parties(f, "SPU", "AM", "SPT", most / 2);
    add_owner(f, "SWR", "CA", HALF, 0);
    add_parties(f, "SWR", "C ", "SWT", most / 10 * 8);
    add_some(f, "ALT", most / 10);
    add_some(f, "IND", most / 20);
    add_some(f, "XRF", most - f->counts[DETAIL]);
    judge(f);
    add(f, "GRT");
    close_file(f);
}

/* ---- claims that leave the sums of the largest shares in doubt, and are within the limit in each territory */

static void add_claim(struct file *f, const char *type, size_t place, bool excludes) {
    f->territory = territory_at(place);
    f->excludes = excludes;
    add(f, type);
    f->territory = NULL;
    f->excludes = false;
}

/* A song whose publisher has the world but for one country, which a sub-publisher has. */
static void add_sub_published(struct file *f, size_t country) {
    add_song(f);
    add_owner(f, "SPU", "E ", HALF, WHOLE);
    add_claim(f, "SPT", 0, false);
    add_claim(f, "SPT", country, true);
    add_owner(f, "SPU", "SE", 0, 0);
    share_out(f, HALF, WHOLE, 1, 0);
    add_claim(f, "SPT", country, false);
    add_owner(f, "SWR", "CA", HALF, 0);
    add_claim(f, "SWT", 0, false);
    add(f, "PWR");
    add(f, "IND");
}

/* Ten records each, as many as a file may have. */
static void make_sub_published(struct file *f, uint64_t share) {
    lend_usual(f);
    open_group(f, "NWR");
    while (f->counts[RECORDS] + 10 + 2 <= CWR_MOST_RECORDS / share) {
        add_sub_published(f, 1 + CONTINENTS + below(f, USUAL_TERRITORIES - 1 - CONTINENTS));
        judge(f);
    }
    add(f, "GRT");
    close_file(f);
}

/* A song with one that owns all, before whatever else it has. */
static void open_countries(struct file *f) {
    lend_usual(f);
    lend_countries(f);
    open_group(f, "NWR");
    add_song(f);
    add_owner(f, "SPU", "E ", HALF, WHOLE);
    add_owner(f, "SWR", "CA", HALF, 0);
}

static void close_countries(struct file *f) {
    add(f, "IND");
    judge(f);
    add(f, "GRT");
    close_file(f);
}

/* As many parties with a claim as a file may have: of 512 countries each has at most 128 of them, who have 9,984 together. */
static void make_claiming(struct file *f, uint64_t share) {
    uint64_t most = CWR_MOST_RECORDS / share - 3;
    open_countries(f);
    for (size_t i = 0; f->counts[RECORDS] + 2 <= most; i++) {
        add_owner(f, "SWR", "C ", 0, 0);
        share_out(f, 78, 78, 1, 0);
        add_claim(f, "SWT", i % CWR_MOST_TERRITORIES, false);
    }
    close_countries(f);
}

/* As many claims as a file may have, all of one party. The first has too much; the last in each country counts. */
static void make_one_claiming(struct file *f, uint64_t share) {
    uint64_t most = CWR_MOST_RECORDS / share - 3;
    open_countries(f);
    share_out(f, 99999, 99999, 1, 0);
    for (size_t i = 0; f->counts[RECORDS] < most; i++) {
        add_claim(f, "SWT", i % CWR_MOST_TERRITORIES, false);
        share_out(f, 1, 1, 1, 0);
    }
    close_countries(f);
}

/* ---- tables as large as they may be, and codes that are not in them */

enum { MOST_CODE_BYTES = 3, ASKED = 128, HINTS = 4093 };

/* The hint that crate tables looks at first: were it another, the file would still be right, and no longer the worst. */
static size_t hint_of(const uint8_t *code, size_t size) {
    return ((code[0] * 256u + code[1]) * 256u + code[size - 1] + 1) % HINTS;
}

static bool hint_taken(const struct codes *table, const uint8_t *code, size_t size) {
    for (size_t at = 0; at < table->length; at += size)
        if (hint_of(table->bytes + at, size) == hint_of(code, size))
            return true;
    return false;
}

/* Some code or other, of the letters, digits and signs of ASCII: among letters and digits alone no two codes of two have the same hint. */
static void put_some_code(struct file *f, uint8_t *at, size_t size) {
    for (size_t i = 0; i < size; i++)
        at[i] = (uint8_t)('!' + below(f, '~' - '!' + 1));
}

/* A table of as many codes as it may have, all different. */
static void fill_table(struct file *f, int which, uint8_t *bytes, size_t size) {
    struct codes *table = &f->tables[which];
    *table = (struct codes){bytes, 0};
    while (table->length < CWR_MOST_ENTRIES * size) {
        uint8_t *at = bytes + table->length;
        put_some_code(f, at, size);
        if (!is_in(table, at, size) && !(size == 3 && same(at, "SER")))
            table->length += size;
    }
}

/* Codes that are not in it, and either all or none of which have a hint that is another's. */
static void fill_asked(struct file *f, int which, uint8_t *bytes, size_t size, bool taken) {
    struct codes *asked = &f->asked[which];
    *asked = (struct codes){bytes, 0};
    while (asked->length < ASKED * size) {
        uint8_t *at = bytes + asked->length;
        put_some_code(f, at, size);
        if (!is_in(&f->tables[which], at, size) && !(size == 3 && same(at, "SER")) && hint_taken(&f->tables[which], at, size) == taken)
            asked->length += size;
    }
}

static void lend_large(struct file *f, bool taken) {
    static const size_t sizes[TABLES] = {CWR_LANGUAGE_BYTES, CWR_SOCIETY_BYTES, CWR_CATEGORY_BYTES};
    static uint8_t tables[TABLES][CWR_MOST_ENTRIES * MOST_CODE_BYTES], asked[TABLES][ASKED * MOST_CODE_BYTES];
    lend_world(f);
    for (int which = 0; which < TABLES; which++) {
        fill_table(f, which, tables[which], sizes[which]);
        fill_asked(f, which, asked[which], sizes[which], taken);
    }
}

/* Nearly all records are publishers, with three codes each: a work has one that owns all and 18 that own nothing. */
static void make_publishers(struct file *f, uint64_t share, bool taken) {
    size_t most = CWR_MOST_BYTES / share - 6000;
    lend_large(f, taken);
    open_group(f, "NWR");
    while (f->length < most) {
        add_song(f);
        add_owner(f, "SPU", "E ", HALF, WHOLE);
        for (int idle = 0; idle < 18; idle++)
            add_owner(f, "SPU", "AM", 0, 0);
        add_owner(f, "SWR", "CA", HALF, 0);
        judge(f);
    }
    add(f, "GRT");
    close_file(f);
}

static void make_missed(struct file *f, uint64_t share) {
    make_publishers(f, share, false);
}

static void make_colliding(struct file *f, uint64_t share) {
    make_publishers(f, share, true);
}

const struct maker makers[] = {
    {"right",               make_right         },
    {"flawed",              make_flawed        },
    {"first work rejected", make_first_rejected},
    {"last work rejected",  make_last_rejected },
    {"fault at the end",    make_fault         },
    {"131,072 records",     make_short         },
    {"43,690 groups",       make_groups        },
    {"one transaction",     make_one           },
    {"codes missed",        make_missed        },
    {"codes colliding",     make_colliding     },
    {"sub-published",       make_sub_published },
    {"a claim a party",     make_claiming      },
    {"claims of one party", make_one_claiming  },
};
const size_t makers_count = sizeof makers / sizeof makers[0];

static uint8_t *room(const char *name, size_t length) {
    uint8_t *bytes = malloc(length);
    if (!bytes)
        stop(name, "no memory");
    /* So that no page is met for the first time while it is measured. */
    memset(bytes, 0, length);
    return bytes;
}

/* What the sheet says of its records. Of a file that is refused it says nothing else than that. */
static void count_records(struct file *f) {
    for (size_t i = 0; i < f->records; i++) {
        uint64_t set = cwr_findings_of(f->findings, i);
        f->sheet[BY_VERDICT + f->verdicts[i]]++;
        for (unsigned k = 0; k < BY_VERDICT - BY_FINDING; k++)
            f->sheet[BY_FINDING + k] += set >> k & 1;
    }
}

static void finish_sheet(struct file *f) {
    if (f->structure == f->records) {
        count_records(f);
    } else {
        memset(f->sheet, 0, sizeof f->sheet);
        f->sheet[1] = 1;
    }
    f->sheet[0] = 1;
}

void make(struct file *f, const struct maker *maker, uint64_t share) {
    memset(f, 0, sizeof *f);
    f->name = maker->name;
    f->seed = 20220001;
    f->search = CWR_NO_TRANSACTION;
    f->bytes = room(f->name, CWR_MOST_BYTES);
    f->verdicts = room(f->name, CWR_MOST_RECORDS);
    f->findings = room(f->name, CWR_MOST_RECORDS * CWR_FINDING_BYTES);
    add(f, "HDR");
    maker->make(f, share);
    finish_sheet(f);
}

void forget(struct file *f) {
    free(f->bytes);
    free(f->verdicts);
    free(f->findings);
}
