#ifndef STATUS_H
#define STATUS_H

/* What the program ends with, each worse than the one before. */
enum status { STATUS_ACCEPTED = 0, STATUS_DEFAULTED = 1, STATUS_REJECTED = 2, STATUS_REFUSED = 3, STATUS_FAILED = 4 };

static inline enum status worse_of(enum status a, enum status b) {
    return a > b ? a : b;
}

#endif
