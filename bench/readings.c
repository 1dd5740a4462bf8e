/* readings.c: good logs made by the recorded calls of both sides, and their reading. */
#include "readings.h"

#include <stdbool.h>
#include <string.h>

#include "../include/gulberzan.h"
#include "plain.h"

/* What the next call of a history is, so that births are spread over the log and most tokens fail some times. */
enum next { NEXT_REGISTER, NEXT_POP, NEXT_FAIL, NEXT_DONE, NEXT_RETRY };

struct plan {
    size_t rows;
    size_t tries; /* of the token that is out */
};

/* The last token fails for ever, so that a history can be as long as is asked. */
static enum next next_of(const uint64_t *queue, size_t used, const struct plan *plan) {
    uint64_t born = queue[GULBERZAN_TOKENS_ISSUED];
    bool due = born < GULBERZAN_SLOTS && born * plan->rows <= used * GULBERZAN_SLOTS;
    if (born == 0 || (due && used % 2 == 0)) {
        return NEXT_REGISTER;
    }
    if (queue[GULBERZAN_ISSUED]) {
        bool enough = plan->tries * 3 * GULBERZAN_SLOTS >= plan->rows;
        return enough && born < GULBERZAN_SLOTS ? NEXT_DONE : NEXT_FAIL;
    }
    if (queue[GULBERZAN_FAILED]) {
        return NEXT_RETRY;
    }
    return NEXT_POP;
}

/* One recorded call of the library's; a pop of an empty queue becomes a birth. */
static uint64_t library_call(enum next next, uint64_t *queue, uint64_t *words, size_t room, uint64_t *used,
                             uint64_t *answer) {
    uint64_t ticket[] = {queue[GULBERZAN_TICKET_DOMAIN], queue[GULBERZAN_TICKET_TOKEN], queue[GULBERZAN_TICKET_ATTEMPT]};
    switch (next) {
    case NEXT_REGISTER:
        return gulberzan_register_recorded(queue, *used + 100, words, room, used, answer);
    case NEXT_POP:
        return gulberzan_pop_recorded(queue, words, room, used, answer);
    case NEXT_FAIL:
        return gulberzan_complete_recorded(queue, ticket, GULBERZAN_OUTCOME_FAILED, *used + 7, words, room, used, answer);
    case NEXT_DONE:
        return gulberzan_complete_recorded(queue, ticket, GULBERZAN_OUTCOME_DONE, 0, words, room, used, answer);
    default:
        return gulberzan_retry_recorded(queue, words, room, used, answer);
    }
}

static uint64_t plain_call(enum next next, struct plain_queue *queue, struct plain_log *log) {
    struct plain_ticket ticket = queue->ticket;
    struct plain_work out;
    uint64_t token;
    switch (next) {
    case NEXT_REGISTER:
        return plain_register_recorded(queue, log->rows + 100, log, &token);
    case NEXT_POP:
        return plain_pop_recorded(queue, log, &out);
    case NEXT_FAIL:
        return plain_complete_recorded(queue, &ticket, 1, log->rows + 7, log);
    case NEXT_DONE:
        return plain_complete_recorded(queue, &ticket, 0, 0, log);
    default:
        return plain_retry_recorded(queue, log, &ticket);
    }
}

/* The call that is made on both sides, each time one that writes a row. */
static enum next choose(const uint64_t *queue, size_t used, struct plan *plan) {
    uint64_t answer[GULBERZAN_ANSWER_WORDS];
    uint64_t asked = gulberzan_is_empty(queue, answer);
    enum next next = next_of(queue, used, plan);
    if (next == NEXT_POP && asked == GULBERZAN_OK && answer[GULBERZAN_CASE] == GULBERZAN_CASE_YES) {
        next = NEXT_REGISTER;
    }
    if (next == NEXT_FAIL) {
        plan->tries++;
    } else if (next == NEXT_DONE) {
        plan->tries = 0;
    }
    return next;
}

void make_good_log(uint64_t *words, size_t rows) {
    static uint64_t other[GULBERZAN_LOG_WORDS];
    size_t room = rows * GULBERZAN_ROW_WORDS;
    uint64_t queue[GULBERZAN_QUEUE_WORDS];
    uint64_t answer[GULBERZAN_ANSWER_WORDS];
    struct plain_queue beside;
    struct plain_log log = {other, room, 0};
    struct plan plan = {rows, 0};
    uint64_t used = 0;
    gulberzan_open_scope(queue, LOG_DOMAIN, 0);
    plain_open_scope(&beside, LOG_DOMAIN, 0);
    while (used < rows) {
        uint64_t before = used;
        enum next next = choose(queue, used, &plan);
        uint64_t result = library_call(next, queue, words, room, &used, answer) | plain_call(next, &beside, &log);
        if (result != 0 || used != before + 1) {
            die("a good log could not be made");
        }
    }
    if (log.rows != rows || memcmp(words, other, room * sizeof words[0]) != 0) {
        die("the two sides leave other logs");
    }
}

static void library_reading(const void *work, size_t times) {
    const struct reading *reading = work;
    uint64_t queue[GULBERZAN_QUEUE_WORDS];
    uint64_t answer[GULBERZAN_ANSWER_WORDS];
    uint64_t none[1] = {0};
    uint64_t wrong = 0;
    for (size_t time = 0; time < times; time++) {
        wrong |= gulberzan_read(queue, GULBERZAN_SCOPE, LOG_DOMAIN, 0, none, 0, reading->words,
                                reading->rows * GULBERZAN_ROW_WORDS, answer);
        wrong |= answer[GULBERZAN_VALUE] ^ reading->rows;
    }
    if (wrong) {
        die("the library refuses a good log");
    }
}

static void plain_reading(const void *work, size_t times) {
    const struct reading *reading = work;
    struct plain_opening opening = {PLAIN_SCOPE, LOG_DOMAIN, 0, NULL, 0};
    struct plain_queue queue;
    uint64_t place;
    uint64_t wrong = 0;
    for (size_t time = 0; time < times; time++) {
        wrong |= plain_read(&queue, &opening, reading->words, reading->rows * PLAIN_ROW_WORDS, &place);
        wrong |= place ^ reading->rows;
    }
    if (wrong) {
        die("the plain reader refuses a good log");
    }
}

const work_many readings[SIDES] = {library_reading, plain_reading};
