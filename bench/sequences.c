/* sequences.c: a scope opened and 64 numbers registered, by one call or by 64; the library's calls and the plain ones alike. */
#include "sequences.h"

#include "plain.h"

#define DOMAIN 5
/* A row a number. */
#define ROOM (GULBERZAN_SLOTS * GULBERZAN_ROW_WORDS)

/* Every result and every count is looked at: a list that is broken off early would look like speed. */
static void expect_whole(uint64_t wrong) {
    if (wrong != 0) {
        die("a list was refused, or not taken whole");
    }
}

void make_sequence(struct sequence *sequence) {
    for (uint64_t token = 0; token < GULBERZAN_SLOTS; token++) {
        sequence->numbers[token] = token + 1;
    }
}

static void library_at_once(const void *work, size_t times) {
    const struct sequence *sequence = work;
    uint64_t queue[GULBERZAN_QUEUE_WORDS];
    uint64_t answer[GULBERZAN_ANSWER_WORDS];
    uint64_t wrong = 0;
    for (size_t time = 0; time < times; time++) {
        wrong |= gulberzan_open_scope(queue, DOMAIN, 0);
        wrong |= gulberzan_register_all(queue, sequence->numbers, GULBERZAN_SLOTS, answer);
        wrong |= answer[GULBERZAN_VALUE] ^ GULBERZAN_SLOTS;
    }
    expect_whole(wrong);
}

static void plain_at_once(const void *work, size_t times) {
    const struct sequence *sequence = work;
    struct plain_queue queue;
    uint64_t taken;
    uint64_t wrong = 0;
    for (size_t time = 0; time < times; time++) {
        wrong |= plain_open_scope(&queue, DOMAIN, 0);
        wrong |= plain_register_all(&queue, sequence->numbers, PLAIN_SLOTS, &taken);
        wrong |= taken ^ PLAIN_SLOTS;
    }
    expect_whole(wrong);
}

static uint64_t library_singly(uint64_t *queue, const struct sequence *sequence) {
    uint64_t answer[GULBERZAN_ANSWER_WORDS];
    uint64_t results = gulberzan_open_scope(queue, DOMAIN, 0);
    for (size_t token = 0; token < GULBERZAN_SLOTS; token++) {
        results |= gulberzan_register(queue, sequence->numbers[token], answer);
    }
    return results;
}

static void library_one_by_one(const void *work, size_t times) {
    uint64_t queue[GULBERZAN_QUEUE_WORDS];
    uint64_t wrong = 0;
    for (size_t time = 0; time < times; time++) {
        wrong |= library_singly(queue, work);
        wrong |= queue[GULBERZAN_TOKENS_ISSUED] ^ GULBERZAN_SLOTS;
    }
    expect_whole(wrong);
}

static uint64_t plain_singly(struct plain_queue *queue, const struct sequence *sequence) {
    uint64_t born;
    uint64_t results = plain_open_scope(queue, DOMAIN, 0);
    for (size_t token = 0; token < PLAIN_SLOTS; token++) {
        results |= plain_register(queue, sequence->numbers[token], &born);
    }
    return results;
}

static void plain_one_by_one(const void *work, size_t times) {
    struct plain_queue queue;
    uint64_t wrong = 0;
    for (size_t time = 0; time < times; time++) {
        wrong |= plain_singly(&queue, work);
        wrong |= queue.tokens ^ PLAIN_SLOTS;
    }
    expect_whole(wrong);
}

static void library_recorded_at_once(const void *work, size_t times) {
    const struct sequence *sequence = work;
    uint64_t queue[GULBERZAN_QUEUE_WORDS];
    uint64_t answer[GULBERZAN_ANSWER_WORDS];
    uint64_t log[ROOM];
    uint64_t wrong = 0;
    for (size_t time = 0; time < times; time++) {
        uint64_t used = 0;
        wrong |= gulberzan_open_scope(queue, DOMAIN, 0);
        wrong |= gulberzan_register_all_recorded(queue, sequence->numbers, GULBERZAN_SLOTS, log, ROOM, &used, answer);
        wrong |= (answer[GULBERZAN_VALUE] ^ GULBERZAN_SLOTS) | (used ^ GULBERZAN_SLOTS);
    }
    expect_whole(wrong);
}

static void plain_recorded_at_once(const void *work, size_t times) {
    const struct sequence *sequence = work;
    struct plain_queue queue;
    uint64_t words[ROOM];
    uint64_t taken;
    uint64_t wrong = 0;
    for (size_t time = 0; time < times; time++) {
        struct plain_log log = {words, ROOM, 0};
        wrong |= plain_open_scope(&queue, DOMAIN, 0);
        wrong |= plain_register_all_recorded(&queue, sequence->numbers, PLAIN_SLOTS, &log, &taken);
        wrong |= (taken ^ PLAIN_SLOTS) | (log.rows ^ PLAIN_SLOTS);
    }
    expect_whole(wrong);
}

static uint64_t library_recorded_singly(uint64_t *queue, const struct sequence *sequence, uint64_t *log, uint64_t *used) {
    uint64_t answer[GULBERZAN_ANSWER_WORDS];
    uint64_t results = gulberzan_open_scope(queue, DOMAIN, 0);
    for (size_t token = 0; token < GULBERZAN_SLOTS; token++) {
        results |= gulberzan_register_recorded(queue, sequence->numbers[token], log, ROOM, used, answer);
    }
    return results;
}

static void library_recorded_one_by_one(const void *work, size_t times) {
    uint64_t queue[GULBERZAN_QUEUE_WORDS];
    uint64_t log[ROOM];
    uint64_t wrong = 0;
    for (size_t time = 0; time < times; time++) {
        uint64_t used = 0;
        wrong |= library_recorded_singly(queue, work, log, &used);
        wrong |= used ^ GULBERZAN_SLOTS;
    }
    expect_whole(wrong);
}

static uint64_t plain_recorded_singly(struct plain_queue *queue, const struct sequence *sequence, struct plain_log *log) {
    uint64_t born;
    uint64_t results = plain_open_scope(queue, DOMAIN, 0);
    for (size_t token = 0; token < PLAIN_SLOTS; token++) {
        results |= plain_register_recorded(queue, sequence->numbers[token], log, &born);
    }
    return results;
}

static void plain_recorded_one_by_one(const void *work, size_t times) {
    struct plain_queue queue;
    uint64_t words[ROOM];
    uint64_t wrong = 0;
    for (size_t time = 0; time < times; time++) {
        struct plain_log log = {words, ROOM, 0};
        wrong |= plain_recorded_singly(&queue, work, &log);
        wrong |= log.rows ^ PLAIN_SLOTS;
    }
    expect_whole(wrong);
}

const work_many lists_at_once[SIDES] = {library_at_once, plain_at_once};
const work_many lists_one_by_one[SIDES] = {library_one_by_one, plain_one_by_one};
const work_many recorded_lists_at_once[SIDES] = {library_recorded_at_once, plain_recorded_at_once};
const work_many recorded_lists_one_by_one[SIDES] = {library_recorded_one_by_one, plain_recorded_one_by_one};
