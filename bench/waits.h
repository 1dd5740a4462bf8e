/* waits.h: pops from 64 tokens of which one waits, as work to time. */
#ifndef WAITS_H
#define WAITS_H

#include <stdint.h>

#include "../include/gulberzan.h"
#include "plain.h"
#include "timing.h"

/* A queue whose 64 tokens are all settled but the one at this place, by words and in plain C; by value C can't hold it. */
struct wait {
    uint64_t place;
    uint64_t words[GULBERZAN_QUEUE_WORDS];
    struct plain_queue plain;
};

void make_wait(struct wait *wait, uint64_t place);

/* The library by words, and the Rattle call by value; both beside the same pops in plain C. */
extern const work_many word_pops[SIDES];
extern const work_many value_pops[SIDES];

#endif
