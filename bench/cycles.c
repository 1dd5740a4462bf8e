/* cycles.c: an opening, then tokens registered, popped and completed; the library's calls and the plain ones alike. */
#include "cycles.h"

#include <stdint.h>

#include "../include/gulberzan.h"
#include "plain.h"

#define DOMAIN 5
/* Three rows a token. */
#define ROOM (64 * 3 * GULBERZAN_ROW_WORDS)

/* Every call's result is kept, and one that is not 0 ends the run: refusals are quick, and would look like speed. */
static void expect_done(uint64_t results) {
    if (results != 0) {
        die("a cycle was refused");
    }
}

static void library_queue(const void *work, size_t times) {
    size_t tokens = ((const struct cycle *)work)->tokens;
    uint64_t queue[GULBERZAN_QUEUE_WORDS];
    uint64_t answer[GULBERZAN_ANSWER_WORDS];
    uint64_t results = 0;
    for (size_t time = 0; time < times; time++) {
        results |= gulberzan_open_scope(queue, DOMAIN, 0);
        for (size_t token = 0; token < tokens; token++) {
            results |= gulberzan_register(queue, token + 1, answer);
        }
        for (size_t token = 0; token < tokens; token++) {
            results |= gulberzan_pop(queue, answer);
            uint64_t ticket[GULBERZAN_TICKET_WORDS] = {answer[1], answer[2], answer[3]};
            results |= gulberzan_complete(queue, ticket, GULBERZAN_OUTCOME_DONE, 0, answer);
        }
    }
    expect_done(results);
}

static void plain_queue(const void *work, size_t times) {
    size_t tokens = ((const struct cycle *)work)->tokens;
    struct plain_queue queue;
    struct plain_work out;
    uint64_t born;
    uint64_t results = 0;
    for (size_t time = 0; time < times; time++) {
        results |= plain_open_scope(&queue, DOMAIN, 0);
        for (size_t token = 0; token < tokens; token++) {
            results |= plain_register(&queue, token + 1, &born);
        }
        for (size_t token = 0; token < tokens; token++) {
            results |= plain_pop(&queue, &out);
            results |= plain_complete(&queue, &out.ticket, 0, 0);
        }
    }
    expect_done(results);
}

static void library_recorded(const void *work, size_t times) {
    size_t tokens = ((const struct cycle *)work)->tokens;
    uint64_t queue[GULBERZAN_QUEUE_WORDS];
    uint64_t answer[GULBERZAN_ANSWER_WORDS];
    uint64_t log[ROOM];
    uint64_t results = 0;
    for (size_t time = 0; time < times; time++) {
        uint64_t used = 0;
        results |= gulberzan_open_scope(queue, DOMAIN, 0);
        for (size_t token = 0; token < tokens; token++) {
            results |= gulberzan_register_recorded(queue, token + 1, log, ROOM, &used, answer);
        }
        for (size_t token = 0; token < tokens; token++) {
            results |= gulberzan_pop_recorded(queue, log, ROOM, &used, answer);
            uint64_t ticket[GULBERZAN_TICKET_WORDS] = {answer[1], answer[2], answer[3]};
            results |= gulberzan_complete_recorded(queue, ticket, GULBERZAN_OUTCOME_DONE, 0, log, ROOM, &used, answer);
        }
        results |= used ^ (3 * tokens);
    }
    expect_done(results);
}

static void plain_recorded(const void *work, size_t times) {
    size_t tokens = ((const struct cycle *)work)->tokens;
    struct plain_queue queue;
    struct plain_work out;
    uint64_t words[ROOM];
    uint64_t born;
    uint64_t results = 0;
    for (size_t time = 0; time < times; time++) {
        struct plain_log log = {words, ROOM, 0};
        results |= plain_open_scope(&queue, DOMAIN, 0);
        for (size_t token = 0; token < tokens; token++) {
            results |= plain_register_recorded(&queue, token + 1, &log, &born);
        }
        for (size_t token = 0; token < tokens; token++) {
            results |= plain_pop_recorded(&queue, &log, &out);
            results |= plain_complete_recorded(&queue, &out.ticket, 0, 0, &log);
        }
        results |= log.rows ^ (3 * tokens);
    }
    expect_done(results);
}

const work_many queue_cycles[SIDES] = {library_queue, plain_queue};
const work_many recorded_cycles[SIDES] = {library_recorded, plain_recorded};
