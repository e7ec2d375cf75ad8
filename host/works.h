/* A file that passed, taken apart into its groups and works: the only place that says which records are of a work. */
#ifndef WORKS_H
#define WORKS_H

#include "judged.h"

/* Fills the lists of groups and works, and counts the verdicts. False where there is no memory. */
bool works_of(struct judged *judged);

#endif
