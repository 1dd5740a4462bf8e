/* cycles.h: an opening, then tokens registered, popped and completed, as work to time. */
#ifndef CYCLES_H
#define CYCLES_H

#include "timing.h"

struct cycle {
    size_t tokens; /* at most 64 */
};

/* On the queue alone, and with a row written by each call but the opening. */
extern const work_many queue_cycles[SIDES];
extern const work_many recorded_cycles[SIDES];

#endif
