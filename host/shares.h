/* A work's shares added up, for showing beside the findings that speak of them. It judges nothing. */
#ifndef SHARES_H
#define SHARES_H

#include <stdbool.h>
#include <stddef.h>
#include <stdint.h>

#include "text.h"

enum { RIGHTS = 3, SHARE_SIZE = 5 };

extern const char *const right_names[RIGHTS];

/* In hundredths of a percent. */
struct shares {
    uint64_t publishers[RIGHTS], writers[RIGHTS];
};

/* What a sum may come to when there is no tolerance. */
struct range {
    bool of_publishers, of_writers; /* whose shares it is about */
    bool exactly_nothing;           /* where the least is more, nothing will do too: exactly, or within the tolerance */
    uint64_t least, most;
};

extern const struct range publishers_ranges[RIGHTS], writers_ranges[RIGHTS], together_ranges[RIGHTS];

/* Of each right, what all may collect in a territory. */
extern const struct range collected_range;

/* Whether a record is of a publisher, or of a writer, and so may have shares. */
bool is_publisher(struct bytes record);
bool is_writer(struct bytes record);

/* Where a record has its share of a right; 0 where it has none. */
size_t share_start(struct bytes record, size_t right);

/* Where a claim has what starts there in SPT and OPT: SWT and OWT lack six characters before it. */
size_t claim_start(struct bytes record, size_t start);

/* The share that starts there. One that is not five digits counts nothing, as in the library. */
uint64_t share_at(struct bytes record, size_t start);

/* One record more. */
void add_shares(struct shares *shares, struct bytes record);

/* "50.06%" */
struct percent {
    char words[32];
};

struct percent percent_of(uint64_t hundredths);

/* The same with its sign: "-60.00%", "+0.04%"; nothing has none. */
struct percent signed_percent_of(int64_t hundredths);

/* "at most 50.06%", "0.00%, or 99.94% to 100.06%", "0.00% to 0.06%, or 49.94% to 100.06%" */
struct range_words {
    char words[128];
};

struct range_words range_within(const struct range *range, uint64_t tolerance);

#endif
