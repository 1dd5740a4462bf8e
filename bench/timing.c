/* timing.c: two sides timed in turn, in processor time, so that a busy machine disturbs both alike and little. */
#define _POSIX_C_SOURCE 200809L
#include "timing.h"

#include <stdio.h>
#include <stdlib.h>
#include <time.h>

#define MOST_TURNS 64

_Noreturn void die(const char *why) {
    fprintf(stderr, "bench: %s\n", why);
    exit(1);
}

/* The time that this process had a processor; what others took meanwhile is not in it. */
static double processor_ns(void) {
    struct timespec now;
    if (clock_gettime(CLOCK_PROCESS_CPUTIME_ID, &now) != 0) {
        die("no clock");
    }
    return (double)now.tv_sec * 1e9 + (double)now.tv_nsec;
}

static double time_batch(work_many side, const void *work, size_t times) {
    double start = processor_ns();
    side(work, times);
    return processor_ns() - start;
}

/* So many pieces of work that the quicker side's batch is long enough for the clock; this also warms both up. */
static size_t batch_size(const work_many sides[SIDES], const void *work, double batch_ns) {
    size_t times = 1;
    for (;;) {
        double one = time_batch(sides[LIBRARY], work, times);
        double other = time_batch(sides[PLAIN], work, times);
        /* A slow library must not make the whole take minutes, so its batch is bounded too. */
        if ((one < other ? one : other) >= batch_ns / 4 || one >= batch_ns * 2) {
            return times;
        }
        times *= 2;
    }
}

static int by_size(const void *one, const void *other) {
    double a = *(const double *)one;
    double b = *(const double *)other;
    return (a > b) - (a < b);
}

struct timed summed_up(double *times[SIDES], int turns) {
    struct timed timed;
    for (int side = 0; side < SIDES; side++) {
        qsort(times[side], (size_t)turns, sizeof times[side][0], by_size);
        timed.least[side] = times[side][0];
        timed.median[side] = times[side][turns / 2];
    }
    return timed;
}

struct timed time_in_turn(const work_many sides[SIDES], const void *work, const struct effort *effort) {
    double library[MOST_TURNS];
    double plain[MOST_TURNS];
    double *times[SIDES] = {library, plain};
    size_t count = batch_size(sides, work, effort->batch_ns);
    int turns = effort->turns < MOST_TURNS ? effort->turns : MOST_TURNS;
    for (int turn = 0; turn < turns; turn++) {
        /* Who goes first changes, so that neither always follows the other. */
        for (int step = 0; step < SIDES; step++) {
            int side = (turn + step) % SIDES;
            times[side][turn] = time_batch(sides[side], work, count) / (double)count;
        }
    }
    return summed_up(times, turns);
}
