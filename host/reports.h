/* What a run prints: one way for each format. Each prints what was judged, and judges nothing. */
#ifndef REPORTS_H
#define REPORTS_H

#include "judged.h"
#include "night.h"
#include "out.h"

/* The first and the last may be null. */
struct report {
    void (*begin)(struct out *out, const struct run *run);
    void (*file)(struct out *out, const struct run *run, const struct judged *judged);
    void (*end)(struct out *out, const struct run *run, const struct night *night);
};

extern const struct report text_report, line_report, json_report, list_report;

/* With --first. */
extern const struct report text_first, line_first, json_first;

#endif
