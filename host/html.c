#include "html.h"

#include "letters.h"

static void say_letters(struct out *out, struct letters letters) {
    struct letter letter;
    while (letters_next(&letters, &letter)) {
        if (letter.code == '&' || letter.code == '<' || letter.code == '>' || letter.code == '"' || letter.code == '\'')
            say(out, "&#%u;", letter.code);
        else if (!is_control(letter.code))
            say(out, "%s", utf8_of(letter.code).bytes);
        else
            for (size_t i = 0; i < letter.bytes.length; i++)
                say(out, "\\x%02x", letter.bytes.at[i]);
    }
}

void html_text(struct out *out, struct bytes text) {
    say_letters(out, letters_of(text));
}

void html_name(struct out *out, const char *name) {
    say_letters(out, letters_of_name(name));
}
