/* processes.c: the two drivers as processes, in turn, on one text; their answers must be the same bytes. */
#define _XOPEN_SOURCE 700
#include "processes.h"

#include <inttypes.h>
#include <stdio.h>
#include <string.h>
#include <sys/resource.h>
#include <sys/types.h>
#include <sys/wait.h>
#include <unistd.h>

#include "readings.h"

#define MOST_TURNS 64
#define ROW_WORDS 5
#define ANSWER_ROOM 256

/* The text of an opening and its rows, in a file without a name. */
static FILE *make_text(const uint64_t *words, size_t rows) {
    FILE *text = tmpfile();
    if (text == NULL) {
        die("no room for a text");
    }
    fprintf(text, "0,%d,0,0,0\r\n", LOG_DOMAIN);
    for (size_t row = 0; row < rows; row++) {
        for (size_t column = 0; column < ROW_WORDS; column++) {
            fprintf(text, "%s%" PRIu64, column == 0 ? "" : ",", words[row * ROW_WORDS + column]);
        }
        fputs("\r\n", text);
    }
    if (fflush(text) != 0) {
        die("no room for a text");
    }
    return text;
}

/* Nothing of the benchmark may be left to do in the child but to become the driver. */
static void become(char **command, int input, int output) {
    if (dup2(input, STDIN_FILENO) >= 0 && dup2(output, STDOUT_FILENO) >= 0) {
        execv(command[0], command);
    }
    _exit(127);
}

static double ns_of(const struct timeval *time) {
    return (double)time->tv_sec * 1e9 + (double)time->tv_usec * 1e3;
}

/* The processor time of all children that have ended, their starts included. */
static double children_ns(void) {
    struct rusage usage;
    if (getrusage(RUSAGE_CHILDREN, &usage) != 0) {
        die("no clock of processes");
    }
    return ns_of(&usage.ru_utime) + ns_of(&usage.ru_stime);
}

static double time_process(char **command, FILE *text, FILE *answer) {
    int status = 0;
    rewind(text);
    rewind(answer);
    if (ftruncate(fileno(answer), 0) != 0) {
        die("no room for an answer");
    }
    double start = children_ns();
    pid_t child = fork();
    if (child == 0) {
        become(command, fileno(text), fileno(answer));
    }
    if (child < 0 || waitpid(child, &status, 0) != child || status != 0) {
        die("a driver did not run");
    }
    return children_ns() - start;
}

static size_t read_answer(FILE *answer, char *bytes) {
    rewind(answer);
    return fread(bytes, 1, ANSWER_ROOM, answer);
}

struct timed time_drivers(const struct drivers *drivers, const uint64_t *words, size_t rows,
                          const struct effort *effort) {
    double library[MOST_TURNS];
    double plain[MOST_TURNS];
    double *times[SIDES] = {library, plain};
    char said[SIDES][ANSWER_ROOM];
    size_t length[SIDES];
    FILE *text = make_text(words, rows);
    FILE *answer = tmpfile();
    if (answer == NULL) {
        die("no room for an answer");
    }
    int turns = effort->processes < MOST_TURNS ? effort->processes : MOST_TURNS;
    for (int turn = 0; turn < turns; turn++) {
        for (int step = 0; step < SIDES; step++) {
            int side = (turn + step) % SIDES;
            times[side][turn] = time_process(drivers->commands[side], text, answer);
            length[side] = read_answer(answer, said[side]);
        }
        if (length[0] == 0 || length[0] != length[1] || memcmp(said[0], said[1], length[0]) != 0) {
            die("the two drivers answer differently");
        }
    }
    fclose(text);
    fclose(answer);
    return summed_up(times, turns);
}
