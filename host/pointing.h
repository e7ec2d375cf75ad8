/* What a finding comes from, as the library tells when it is asked about parts of the work. */
#ifndef POINTING_H
#define POINTING_H

#include "judged.h"
#include "trial.h"

/* Which of a finding's fields are to be told: those that are wrong, and those beside them. */
void point_fields(struct trial *trial, const struct work *work, const struct found *found, bool told[MOST_FIELDS]);

/* The rights whose shares do not fit; the record or the chain that it comes from. */
void point_rights(struct trial *trial, const struct work *work, struct found *found);
void point_record(struct trial *trial, const struct work *work, struct found *found);
void point_chain(struct trial *trial, const struct work *work, struct found *found);

#endif
