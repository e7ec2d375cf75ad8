/* The catalogue sheet, as a part of the page. */
#ifndef HTML_SHEET_H
#define HTML_SHEET_H

#include "night.h"
#include "out.h"

void html_sheet(struct out *out, const struct run *run, const struct night *night);

#endif
