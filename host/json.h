/* JSON by RFC 8259, in UTF-8: members of objects and entries of lists, one after the other. */
#ifndef JSON_H
#define JSON_H

#include <stdbool.h>

#include "out.h"

struct json {
    struct out *out;
    bool begun; /* something stands before in the object or list, so a comma is due */
};

struct json json_to(struct out *out);

/* The name is null in a list, and where nothing is around it. */
void json_object(struct json *json, const char *name);
void json_end_object(struct json *json);
void json_list(struct json *json, const char *name);
void json_end_list(struct json *json);

/* The outermost object, and with it the line. */
void json_end_line(struct json *json);

void json_number(struct json *json, const char *name, size_t value);
void json_signed(struct json *json, const char *name, int64_t value);
void json_percent(struct json *json, const char *name, uint64_t hundredths);
void json_truth(struct json *json, const char *name, bool value);

/* Text of a CWR file, a byte a letter; the name of a file, or words with one in them; words of the program alone. Null is null. */
void json_text(struct json *json, const char *name, struct bytes value);
void json_name(struct json *json, const char *name, const char *value);
void json_words(struct json *json, const char *name, const char *value);

#endif
