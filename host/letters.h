/* Text taken letter by letter, so that it can be shown in UTF-8 and do nothing to the screen. */
#ifndef LETTERS_H
#define LETTERS_H

#include <stdbool.h>

#include "text.h"

struct letters {
    struct bytes left;
    bool utf8; /* or a byte a letter, ISO 8859-1 */
};

struct letter {
    uint32_t code;      /* its number in Unicode, and in ISO 8859-1 */
    struct bytes bytes; /* that it is written with */
};

/* The text of a CWR file. */
struct letters letters_of(struct bytes text);

/* The name of a file, or a message with names in it: UTF-8 where all of it is that, else ISO 8859-1. */
struct letters letters_of_name(const char *name);

/* Takes the next letter off; false where nothing is left. */
bool letters_next(struct letters *letters, struct letter *letter);

/* Whether a letter could do something to a screen: below 32, or 127 to 159. */
bool is_control(uint32_t code);

/* How many bytes the letter is written with that this text begins with, in UTF-8; 0 where it is none. */
size_t utf8_length(struct bytes text);

/* The letter in UTF-8, ended by a zero. */
struct utf8 {
    char bytes[5];
};

struct utf8 utf8_of(uint32_t code);

#endif
