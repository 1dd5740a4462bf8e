/* bench.c: the library beside plain C on the same work in turn, as tables. */
#include <stdbool.h>
#include <stdio.h>
#include <string.h>

#include "../include/gulberzan.h"
#include "cycles.h"
#include "processes.h"
#include "readings.h"
#include "sequences.h"
#include "timing.h"
#include "waits.h"

#define DRIVER_ROWS 800
#define SIZES 4

static const struct effort whole = {1e7, 41, 41};
static const struct effort brief = {5e5, 3, 3};
static const size_t sizes[SIZES] = {8, 64, 512, 4096};

static uint64_t words[GULBERZAN_LOG_WORDS];

static void head_row(const char *what, const char *unit) {
    printf("\n%-44s %12s %12s %8s %8s\n", what, "library", "plain C", "ratio", "(median)");
    printf("%-44s %12s %12s\n", "", unit, unit);
}

/* Times are the least of all turns, for noise only adds; the medians' ratio shows how noisy it was. */
static void time_row(const char *what, const struct timed *timed, double unit_ns) {
    printf("%-44s %12.1f %12.1f %8.2f %8.2f\n", what, timed->least[LIBRARY] / unit_ns, timed->least[PLAIN] / unit_ns,
           timed->least[LIBRARY] / timed->least[PLAIN], timed->median[LIBRARY] / timed->median[PLAIN]);
}

static void print_cycles(const char *name, const work_many sides[SIDES], const struct effort *effort) {
    static const size_t counts[] = {1, 64};
    for (size_t i = 0; i < sizeof counts / sizeof counts[0]; i++) {
        struct cycle cycle = {counts[i]};
        char what[64];
        struct timed timed = time_in_turn(sides, &cycle, effort);
        snprintf(what, sizeof what, "%s, %zu token%s", name, counts[i], counts[i] == 1 ? "" : "s");
        /* One opening, then register, pop and complete for each token. */
        time_row(what, &timed, (double)(1 + 3 * counts[i]));
    }
}

static void print_waits(const char *name, const work_many sides[SIDES], const struct effort *effort) {
    static const unsigned places[] = {0, GULBERZAN_SLOTS - 1};
    for (size_t i = 0; i < sizeof places / sizeof places[0]; i++) {
        char what[64];
        struct wait wait;
        make_wait(&wait, places[i]);
        struct timed timed = time_in_turn(sides, &wait, effort);
        snprintf(what, sizeof what, "%s, one of %d waits, at place %u", name, GULBERZAN_SLOTS, places[i]);
        time_row(what, &timed, 1.0);
    }
}

static void print_sequences(const struct effort *effort) {
    static const struct {
        const char *what;
        const work_many *sides;
    } rows[] = {
        {"list of 64 at once", lists_at_once},
        {"list of 64 one by one", lists_one_by_one},
        {"recorded list of 64 at once", recorded_lists_at_once},
        {"recorded list of 64 one by one", recorded_lists_one_by_one},
    };
    struct sequence sequence;
    make_sequence(&sequence);
    for (size_t i = 0; i < sizeof rows / sizeof rows[0]; i++) {
        struct timed timed = time_in_turn(rows[i].sides, &sequence, effort);
        time_row(rows[i].what, &timed, 1.0);
    }
}

static void print_readings(struct timed *timed, const struct effort *effort) {
    for (size_t i = 0; i < SIZES; i++) {
        char what[64];
        struct reading reading = {words, sizes[i]};
        make_good_log(words, sizes[i]);
        timed[i] = time_in_turn(readings, &reading, effort);
        snprintf(what, sizeof what, "good log of %zu rows", sizes[i]);
        time_row(what, &timed[i], 1.0);
    }
}

/* If the cost of a row stays, eight times the rows cost eight times as much. */
static void print_growth(const struct timed *timed) {
    printf("\n%-10s %16s %16s %24s %24s\n", "rows", "library, ns/row", "plain C, ns/row", "library, times the last",
           "plain C, times the last");
    for (size_t i = 0; i < SIZES; i++) {
        double rows = (double)sizes[i];
        printf("%-10zu %16.1f %16.1f", sizes[i], timed[i].least[LIBRARY] / rows, timed[i].least[PLAIN] / rows);
        if (i == 0) {
            printf(" %24s %24s\n", "-", "-");
        } else {
            printf(" %24.2f %24.2f\n", timed[i].least[LIBRARY] / timed[i - 1].least[LIBRARY],
                   timed[i].least[PLAIN] / timed[i - 1].least[PLAIN]);
        }
    }
}

/* Starting a process costs much more than a text; what is lost in that is not told as a time. */
static void difference_cell(double full, double empty) {
    double rest = full - empty;
    if (rest < empty / 20) {
        printf(" %12s", "(too small)");
    } else {
        printf(" %12.1f", rest / 1e3);
    }
}

static void print_drivers(const struct drivers *drivers, const struct effort *effort) {
    make_good_log(words, DRIVER_ROWS);
    struct timed empty = time_drivers(drivers, words, 0, effort);
    struct timed full = time_drivers(drivers, words, DRIVER_ROWS, effort);
    time_row("text of an opening alone", &empty, 1e3);
    time_row("text of 800 rows", &full, 1e3);
    printf("%-44s", "the 800 rows alone, by difference");
    difference_cell(full.least[LIBRARY], empty.least[LIBRARY]);
    difference_cell(full.least[PLAIN], empty.least[PLAIN]);
    printf("\n");
}

static void run_all(const struct drivers *drivers, const struct effort *effort) {
    struct timed timed[SIZES];
    printf("processor times, the least of %d turns, of processes %d; ratio is library / plain C\n", effort->turns,
           effort->processes);
    head_row("calls: open, register, pop, complete", "ns a call");
    print_cycles("queue", queue_cycles, effort);
    print_cycles("recorded queue", recorded_cycles, effort);
    head_row("pop: 64 tokens, one waits", "ns a pop");
    print_waits("pop by words", word_pops, effort);
    print_waits("pop by value", value_pops, effort);
    head_row("lists: open, register 64 numbers", "ns a list");
    print_sequences(effort);
    head_row("the reader", "ns a log");
    print_readings(timed, effort);
    print_growth(timed);
    head_row("the driver as a process", "microseconds");
    print_drivers(drivers, effort);
}

/* bench [--short] DRIVER.. -- PLAIN_DRIVER..: the words that start each. */
int main(int count, char **arguments) {
    int first = 1;
    int split;
    bool quick = count > 1 && strcmp(arguments[1], "--short") == 0;
    first += quick;
    for (split = first; split < count && strcmp(arguments[split], "--") != 0; split++) {
    }
    if (split == first || split + 1 >= count) {
        die("usage: bench [--short] DRIVER.. -- PLAIN_DRIVER..");
    }
    arguments[split] = NULL;
    struct drivers drivers = {{arguments + first, arguments + split + 1}};
    /* A table comes out whole even if a later part ends the program. */
    setvbuf(stdout, NULL, _IOLBF, BUFSIZ);
    run_all(&drivers, quick ? &brief : &whole);
    return 0;
}
