/* Phrases that several reports share. */
#ifndef PHRASES_H
#define PHRASES_H

#include "judged.h"
#include "night.h"
#include "out.h"

/* How a report shows the name of a file, and text of a file. */
typedef void say_name_so(struct out *out, const char *name);
typedef void say_text_so(struct out *out, struct bytes text);

/* "cwrcheck 1.0.0, tolerance 0.06%, tables t: 4 languages, 5 societies, 4 categories"; and ", territories f: 12" */
void say_run(struct out *out, const struct run *run, say_name_so *say_folder);

/* The outcome of a file in a few words that can be acted on; its name is said before. */
void say_outcome(struct out *out, const struct judged *judged);

/* The same with --first: the first work to look at, in the place of works counted. */
void say_first(struct out *out, const struct judged *judged);

/* What a clerk knows a work by: NWR, work "LQ-000002", title "NINE OF TEN" (group 1, transaction 1) */
void say_work(struct out *out, struct bytes header, size_t group, size_t transaction);

/* "7 works: 3 accepted, 4 rejected" */
void say_works(struct out *out, size_t works, const size_t by[VERDICTS]);

/* The verdict on a work, and whether it falls for nothing in itself. */
void say_verdict(struct out *out, const struct work *work);

/* "2 works rejected with it, 1 of them for nothing in itself" */
void say_fallen(struct out *out, const struct group *group);

/* "5 files: 3 accepted, 2 refused" */
void say_files(struct out *out, const struct night *night);

/* Of a right whose shares do not fit, the sums that a finding speaks of: "PR: publishers 40.00%, writers 50.00%, together 90.00%" */
void say_sums(struct out *out, const struct work *work, const struct found *found, size_t right);

/* The same, and what is right: "; right: 0.00%, or 99.94% to 100.06%" */
void say_right(struct out *out, const struct run *run, const struct work *work, const struct found *found, size_t right);

/* The territory that a finding speaks of, with the groups that hold it: "0276 in 2120 in 2136" */
void say_territory(struct out *out, const struct run *run, const struct found *found, say_text_so *say_code);

/* What is collected there of a right: "PR: together 120.00%"; and what is right: "at most 100.06%" */
void say_collected(struct out *out, const struct found *found, size_t right);
struct range_words collected_right(const struct run *run);

/* What a party collects there: "PR 50.00%, MR 100.00%, SR 100.00%" */
void say_party_shares(struct out *out, const struct party *party);

/* What a finding comes from: a record, a chain. Nothing where there is nothing more to say. */
void say_culprit(struct out *out, const struct judged *judged, const struct found *found, say_text_so *say_type);

/* A field with what stands in it, and what is right. */
void say_field(struct out *out, const struct found_field *field);

/* What a finding says, with the default. */
void say_sentence(struct out *out, const struct found *found);

/* How much was not told, in one sentence. */
void say_left_out(struct out *out, const struct judged *judged);

/* Of a sheet: "2 files taken, 1 of them refused" */
void say_taken(struct out *out, const struct sheet *sheet);

/* What its figures on shares mean, in one sentence; and where territories are looked at, that they are not in it. */
extern const char sheet_shares_words[], sheet_territories_words[];

/* What of a night is not in its sheet, in a sentence or two; nothing where all is. */
struct lack {
    char words[256];
};

struct lack sheet_lack(const struct night *night);

#endif
