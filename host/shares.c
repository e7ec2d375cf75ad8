#include "shares.h"

#include <stdio.h>

enum { HALF = 5000, FULL = 10000, WRITERS_CLAIM_LACKS = 6 };

const char *const right_names[RIGHTS] = {"PR", "MR", "SR"};

#define PUBLISHERS_UP_TO(share) {true, false, false, 0, share}
#define WRITERS_UP_TO(share) {false, true, false, 0, share}
#define ALL_OR_NOTHING {true, true, true, FULL, FULL}

const struct range publishers_ranges[RIGHTS] = {PUBLISHERS_UP_TO(HALF), PUBLISHERS_UP_TO(FULL), PUBLISHERS_UP_TO(FULL)};
const struct range writers_ranges[RIGHTS] = {{false, true, false, HALF, FULL}, WRITERS_UP_TO(FULL), WRITERS_UP_TO(FULL)};
const struct range together_ranges[RIGHTS] = {ALL_OR_NOTHING, ALL_OR_NOTHING, ALL_OR_NOTHING};
const struct range collected_range = {true, true, false, 0, FULL};

bool is_publisher(struct bytes record) {
    return text_is(record, "SPU") || text_is(record, "OPU");
}

bool is_writer(struct bytes record) {
    return text_is(record, "SWR") || text_is(record, "OWR");
}

size_t share_start(struct bytes record, size_t right) {
    static const size_t of_publisher[RIGHTS] = {116, 124, 132}, of_writer[RIGHTS] = {130, 138, 146};
    if (is_publisher(record))
        return of_publisher[right];
    return is_writer(record) ? of_writer[right] : 0;
}

size_t claim_start(struct bytes record, size_t start) {
    return text_is(record, "SWT") || text_is(record, "OWT") ? start - WRITERS_CLAIM_LACKS : start;
}

uint64_t share_at(struct bytes record, size_t start) {
    struct bytes text = text_field(record, start, SHARE_SIZE);
    uint64_t value = 0;
    for (size_t i = 0; i < text.length; i++) {
        if (text.at[i] < '0' || text.at[i] > '9')
            return 0;
        value = value * 10 + (uint64_t)(text.at[i] - '0');
    }
    return text.length == SHARE_SIZE ? value : 0;
}

void add_shares(struct shares *shares, struct bytes record) {
    uint64_t *sums = is_publisher(record) ? shares->publishers : shares->writers;
    for (size_t right = 0; right < RIGHTS; right++) {
        size_t start = share_start(record, right);
        if (start != 0)
            sums[right] += share_at(record, start);
    }
}

static struct percent percent_with(const char *sign, uint64_t hundredths) {
    struct percent percent;
    snprintf(percent.words, sizeof percent.words, "%s%llu.%02llu%%", sign, (unsigned long long)(hundredths / 100),
             (unsigned long long)(hundredths % 100));
    return percent;
}

struct percent percent_of(uint64_t hundredths) {
    return percent_with("", hundredths);
}

/* The least number of all has no positive one beside it, so it is turned round as a number without sign. */
struct percent signed_percent_of(int64_t hundredths) {
    uint64_t number = (uint64_t)hundredths;
    return hundredths < 0 ? percent_with("-", 0 - number) : percent_with(hundredths > 0 ? "+" : "", number);
}

struct range_words range_within(const struct range *range, uint64_t tolerance) {
    struct range_words to;
    struct percent most = percent_of(range->most + tolerance);
    if (range->least == 0) {
        snprintf(to.words, sizeof to.words, "at most %s", most.words);
        return to;
    }
    struct percent least = percent_of(range->least > tolerance ? range->least - tolerance : 0), small = percent_of(tolerance);
    bool from_nothing = tolerance > 0 && !range->exactly_nothing;
    snprintf(to.words, sizeof to.words, "0.00%%%s%s, or %s to %s", from_nothing ? " to " : "", from_nothing ? small.words : "",
             least.words, most.words);
    return to;
}
