#include "html_finding.h"

void html_level(struct out *out, const struct finding *words) {
    const char *level = words ? level_name(words->level) : "GR";
    say(out, "<span class=\"mark %s\">%s</span>", level, words ? level : "?");
}

void html_number(struct out *out, uint32_t number, const struct finding *words) {
    say(out, "<span class=\"quiet number\">finding %u%s%s</span>", number, words ? ", " : "", words ? words->edit : "");
}
