#include "letters.h"

#include <string.h>

/* How many bytes a letter has by its first; 0 where no letter begins so. */
static size_t length_by_first(uint8_t first) {
    if (first < 0x80)
        return 1;
    if (first < 0xc2 || first > 0xf4)
        return 0;
    return first < 0xe0 ? 2 : first < 0xf0 ? 3 : 4;
}

static uint32_t decoded(struct bytes letter) {
    static const uint8_t of_first[5] = {0, 0x7f, 0x1f, 0x0f, 0x07};
    uint32_t code = letter.at[0] & of_first[letter.length];
    for (size_t i = 1; i < letter.length; i++)
        code = code << 6 | (letter.at[i] & 0x3fu);
    return code;
}

size_t utf8_length(struct bytes text) {
    static const uint32_t least[5] = {0, 0, 0x80, 0x800, 0x10000};
    size_t length = text.length > 0 ? length_by_first(text.at[0]) : 0;
    if (length == 0 || length > text.length)
        return 0;
    for (size_t i = 1; i < length; i++)
        if ((text.at[i] & 0xc0) != 0x80)
            return 0;
    uint32_t code = decoded((struct bytes){text.at, length});
    bool surrogate = code >= 0xd800 && code <= 0xdfff;
    return code >= least[length] && code <= 0x10ffff && !surrogate ? length : 0;
}

static bool is_utf8(struct bytes text) {
    while (text.length > 0) {
        size_t length = utf8_length(text);
        if (length == 0)
            return false;
        text.at += length;
        text.length -= length;
    }
    return true;
}

struct letters letters_of(struct bytes text) {
    return (struct letters){text, false};
}

struct letters letters_of_name(const char *name) {
    struct bytes text = {(const uint8_t *)name, strlen(name)};
    return (struct letters){text, is_utf8(text)};
}

bool letters_next(struct letters *letters, struct letter *letter) {
    struct bytes *left = &letters->left;
    if (left->length == 0)
        return false;
    letter->bytes = (struct bytes){left->at, letters->utf8 ? utf8_length(*left) : 1};
    letter->code = letters->utf8 ? decoded(letter->bytes) : left->at[0];
    left->at += letter->bytes.length;
    left->length -= letter->bytes.length;
    return true;
}

bool is_control(uint32_t code) {
    return code < 32 || (code >= 127 && code < 160);
}

struct utf8 utf8_of(uint32_t code) {
    struct utf8 to = {{0}};
    if (code < 0x80) {
        to.bytes[0] = (char)code;
        return to;
    }
    size_t more = code < 0x800 ? 1 : code < 0x10000 ? 2 : 3;
    static const uint32_t marks[4] = {0, 0xc0, 0xe0, 0xf0};
    to.bytes[0] = (char)(marks[more] | code >> (6 * more));
    for (size_t i = 1; i <= more; i++)
        to.bytes[i] = (char)(0x80 | (code >> (6 * (more - i)) & 0x3f));
    return to;
}
