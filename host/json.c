#include "json.h"

#include "letters.h"

struct json json_to(struct out *out) {
    return (struct json){out, false};
}

/* A member's name has no space in it, so that it needs no quotes where another program asks for it. */
static void say_member(struct json *json, const char *name) {
    say(json->out, "\"");
    for (; *name; name++)
        say(json->out, "%c", *name == ' ' ? '_' : *name);
    say(json->out, "\":");
}

static void begin(struct json *json, const char *name) {
    if (json->begun)
        say(json->out, ",");
    if (name)
        say_member(json, name);
    json->begun = true;
}

static void open_with(struct json *json, const char *name, const char *mark) {
    begin(json, name);
    say(json->out, "%s", mark);
    json->begun = false;
}

static void close_with(struct json *json, const char *mark) {
    say(json->out, "%s", mark);
    json->begun = true;
}

void json_object(struct json *json, const char *name) {
    open_with(json, name, "{");
}

void json_end_object(struct json *json) {
    close_with(json, "}");
}

void json_list(struct json *json, const char *name) {
    open_with(json, name, "[");
}

void json_end_list(struct json *json) {
    close_with(json, "]");
}

void json_end_line(struct json *json) {
    close_with(json, "}\n");
    json->begun = false;
}

void json_number(struct json *json, const char *name, size_t value) {
    begin(json, name);
    say(json->out, "%zu", value);
}

void json_signed(struct json *json, const char *name, int64_t value) {
    begin(json, name);
    say(json->out, "%lld", (long long)value);
}

void json_percent(struct json *json, const char *name, uint64_t hundredths) {
    begin(json, name);
    say(json->out, "%llu.%02llu", (unsigned long long)(hundredths / 100), (unsigned long long)(hundredths % 100));
}

void json_truth(struct json *json, const char *name, bool value) {
    begin(json, name);
    say(json->out, value ? "true" : "false");
}

/* A quote, a backslash and controls are escaped; those from 127 to 159 too, so that a line can be looked at on a screen. */
static void say_string(struct json *json, struct letters letters) {
    struct letter letter;
    say(json->out, "\"");
    while (letters_next(&letters, &letter)) {
        if (letter.code == '"' || letter.code == '\\')
            say(json->out, "\\%c", (char)letter.code);
        else if (is_control(letter.code))
            say(json->out, "\\u%04x", letter.code);
        else
            say(json->out, "%s", utf8_of(letter.code).bytes);
    }
    say(json->out, "\"");
}

void json_text(struct json *json, const char *name, struct bytes value) {
    begin(json, name);
    say_string(json, letters_of(value));
}

void json_name(struct json *json, const char *name, const char *value) {
    begin(json, name);
    if (value)
        say_string(json, letters_of_name(value));
    else
        say(json->out, "null");
}

void json_words(struct json *json, const char *name, const char *value) {
    json_name(json, name, value);
}
