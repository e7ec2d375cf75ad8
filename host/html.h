/* Text in HTML: what means something there is escaped. */
#ifndef HTML_H
#define HTML_H

#include "out.h"

/* Text of a CWR file; the name of a file, or words with one in them. */
void html_text(struct out *out, struct bytes text);
void html_name(struct out *out, const char *name);

#endif
