/* The findings of a file, gathered as data: counted, and told as far as is asked for. */
#ifndef GATHERING_H
#define GATHERING_H

#include "judged.h"

/* Of a file whose works are known. False where there is no memory. */
bool gather_findings(const struct run *run, struct judged *judged);

#endif
