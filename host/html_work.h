/* A work to look at, as a part of the page. */
#ifndef HTML_WORK_H
#define HTML_WORK_H

#include "judged.h"
#include "out.h"

void html_work(struct out *out, const struct run *run, const struct judged *judged, const struct work *work);

#endif
