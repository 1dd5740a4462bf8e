/* readings.h: good logs made by the recorded calls, and their reading as work to time. */
#ifndef READINGS_H
#define READINGS_H

#include <stdint.h>

#include "timing.h"

#define LOG_DOMAIN 5

struct reading {
    const uint64_t *words;
    size_t rows;
};

/* Writes rows rows, at most 4,096, of one scope's history: what the library's and the plain calls both leave. */
void make_good_log(uint64_t *words, size_t rows);

extern const work_many readings[SIDES];

#endif
