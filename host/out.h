/* What the program prints. The first failure to write is kept, so that it can be told at the end. */
#ifndef OUT_H
#define OUT_H

#include <stdbool.h>
#include <stdio.h>

#include "text.h"

#if defined __GNUC__
#define LIKE_PRINTF(words, first) __attribute__((format(printf, words, first)))
#else
#define LIKE_PRINTF(words, first)
#endif

struct out {
    FILE *to;
    int error; /* of the first write that failed; 0 where none did */
};

LIKE_PRINTF(2, 3) void say(struct out *out, const char *format, ...);

/* "1 work", "2 works" */
void say_count(struct out *out, size_t count, const char *one);

/* Text of a CWR file: a byte a letter, ISO 8859-1, shown in UTF-8. Controls, a quote and a backslash are escaped, so that no file can do
 * anything to the screen. */
void say_text(struct out *out, struct bytes text);

/* The same in quotes, at most `most` bytes of it and then "...". */
void say_quoted(struct out *out, struct bytes text, size_t most);

/* The name of a file, its controls escaped. */
void say_name(struct out *out, const char *name);

/* Writes what is still held back. False, with words on standard error, where any write has failed. */
bool out_close(struct out *out);

/* A message on standard error, with its controls escaped: names may stand in it as they are. Always false, so that a call can answer
 * with it. */
LIKE_PRINTF(1, 2) bool complain(const char *format, ...);

/* Why something failed, for the report as well as for standard error. It goes on where the name of a file begins: "is a folder". */
struct why {
    char words[256];
};

/* Always false, as `complain`. */
LIKE_PRINTF(2, 3) bool fail(struct why *why, const char *format, ...);

#endif
