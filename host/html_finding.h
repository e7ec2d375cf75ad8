/* A finding as the page marks it, wherever it stands there. The words are null where this program has none for its number. */
#ifndef HTML_FINDING_H
#define HTML_FINDING_H

#include "out.h"
#include "words.h"

/* Its level, in the colour of that. */
void html_level(struct out *out, const struct finding *words);

/* Its number, and the edit that it is. */
void html_number(struct out *out, uint32_t number, const struct finding *words);

#endif
