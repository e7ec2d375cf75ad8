#include "out.h"

#include <errno.h>
#include <stdarg.h>
#include <string.h>

#include "letters.h"

/* Nothing is written after a failure: a later write could succeed and leave a hole. */
void say(struct out *out, const char *format, ...) {
    if (out->error != 0)
        return;
    va_list words;
    va_start(words, format);
    if (vfprintf(out->to, format, words) < 0)
        out->error = errno;
    va_end(words);
}

void say_count(struct out *out, size_t count, const char *one) {
    say(out, "%zu %s%s", count, one, count == 1 ? "" : "s");
}

static void say_letter(struct out *out, struct letter letter) {
    if (!is_control(letter.code)) {
        say(out, "%s", utf8_of(letter.code).bytes);
        return;
    }
    for (size_t i = 0; i < letter.bytes.length; i++)
        say(out, "\\x%02x", letter.bytes.at[i]);
}

void say_text(struct out *out, struct bytes text) {
    struct letters letters = letters_of(text);
    struct letter letter;
    while (letters_next(&letters, &letter)) {
        if (letter.code == '"' || letter.code == '\\')
            say(out, "\\");
        say_letter(out, letter);
    }
}

void say_quoted(struct out *out, struct bytes text, size_t most) {
    say(out, "\"");
    say_text(out, text_field(text, 1, most));
    say(out, text.length > most ? "...\"" : "\"");
}

void say_name(struct out *out, const char *name) {
    struct letters letters = letters_of_name(name);
    struct letter letter;
    while (letters_next(&letters, &letter))
        say_letter(out, letter);
}

bool out_close(struct out *out) {
    if (fclose(out->to) != 0 && out->error == 0)
        out->error = errno;
    return out->error == 0 || complain("cannot write the report: %s", strerror(out->error));
}

bool complain(const char *format, ...) {
    struct out out = {stderr, 0};
    char message[8192]; /* longer than any path that can be opened */
    va_list words;
    va_start(words, format);
    vsnprintf(message, sizeof message, format, words);
    va_end(words);
    say(&out, "cwrcheck: ");
    say_name(&out, message);
    say(&out, "\n");
    return false;
}

bool fail(struct why *why, const char *format, ...) {
    va_list words;
    va_start(words, format);
    vsnprintf(why->words, sizeof why->words, format, words);
    va_end(words);
    return false;
}
