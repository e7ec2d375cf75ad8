#ifndef READ_H
#define READ_H

#include "system.h"

/* Reads every byte once. */
uint64_t read_all(const uint8_t *bytes, size_t length);

#endif
