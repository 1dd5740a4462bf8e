/* processes.h: the two drivers as processes on one text. */
#ifndef PROCESSES_H
#define PROCESSES_H

#include <stdint.h>

#include "timing.h"

/* The words that start each driver, NULL behind the last. */
struct drivers {
    char **commands[SIDES];
};

/* The processor time of a process's whole life, in turn, on the text of a log of so many rows. Ends the program if the two
   answer differently. */
struct timed time_drivers(const struct drivers *drivers, const uint64_t *words, size_t rows,
                          const struct effort *effort);

#endif
