#include "first.h"

#include "check.h"

bool first_find(struct bytes file, size_t works_before, struct first *first, struct why *why) {
    struct counts counts = {0, 0};
    struct bytes record;
    size_t before_group = 0; /* works */
    for (size_t i = 0; text_next(&file, &record); i++) {
        if (text_is(record, "GRH"))
            before_group = counts.transactions;
        if (is_header(record) && counts.transactions == works_before) {
            *first = (struct first){works_before, counts.groups, works_before - before_group, i, record};
            return true;
        }
        count_record(&counts, record);
    }
    return fail(why, "has %zu works, and the library names one with %zu before it", counts.transactions, works_before);
}
