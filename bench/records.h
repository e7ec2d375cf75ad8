/* How one record of a file is made, and what is right for it. */
#ifndef RECORDS_H
#define RECORDS_H

#include "files.h"

/* A number below n. */
uint64_t below(struct file *f, uint64_t n);

/* Whether the first three bytes are the same. */
bool same(const void *a, const void *b);

bool is_in(const struct codes *table, const uint8_t *code, size_t size);

/* One record more, with its fields and numbers. The record that it is. */
uint8_t *add(struct file *f, const char *type);

/* The finding holds on the record with this number. */
void mark(struct file *f, size_t record, unsigned finding);

/* What follows for the verdicts and the search from the findings that were marked in the transaction, and for the sheet from its shares. */
void judge(struct file *f);

/* The length of the record that stands here, without its CR LF. */
size_t length_at(const uint8_t *record);

/* The share of one among `parts`, who together have the whole. */
uint64_t part_of(uint64_t whole, uint64_t parts, uint64_t part);

#endif
