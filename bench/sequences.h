/* sequences.h: a scope opened and 64 numbers registered, by one call or by 64, as work to time. */
#ifndef SEQUENCES_H
#define SEQUENCES_H

#include <stdint.h>

#include "../include/gulberzan.h"
#include "timing.h"

struct sequence {
    uint64_t numbers[GULBERZAN_SLOTS];
};

void make_sequence(struct sequence *sequence);

/* On the queue alone, and with a row written for each number. */
extern const work_many lists_at_once[SIDES];
extern const work_many lists_one_by_one[SIDES];
extern const work_many recorded_lists_at_once[SIDES];
extern const work_many recorded_lists_one_by_one[SIDES];

#endif
