/* timing.h: two sides timed in turn on the same work, in processor time. */
#ifndef TIMING_H
#define TIMING_H

#include <stddef.h>

/* Does the work so many times over. */
typedef void (*work_many)(const void *work, size_t times);

enum side { LIBRARY, PLAIN, SIDES };

/* How long a batch should take, and how many turns each side gets, of batches and of processes. */
struct effort {
    double batch_ns;
    int turns;
    int processes;
};

/* Nanoseconds of one piece of work, for each side. */
struct timed {
    double least[SIDES];
    double median[SIDES];
};

/* Of so many turns of each side; sorts them. */
struct timed summed_up(double *times[SIDES], int turns);
/* Batches of the work, as many pieces in each as make it long enough for the clock. */
struct timed time_in_turn(const work_many sides[SIDES], const void *work, const struct effort *effort);

/* Ends the program: a benchmark of wrong answers says nothing. */
_Noreturn void die(const char *why);

#endif
