/* overlap.c: inputs that lie inside the queue, the answer, the log or the used count. Each call is made twice from the same state, with
   its input copied to memory of its own and with its input where it lies, and must leave the same words; and both idioms that one would
   write, with the ticket from pop's answer and from the queue's own words, are followed to the log's row and through the reader, as is a
   list to register that is the queue's own bindings. */
#include <stdio.h>
#include <stdlib.h>
#include <string.h>

#include "gulberzan.h"

#define ROWS 8

/* All that a call may be lent. */
struct bench {
    uint64_t queue[GULBERZAN_QUEUE_WORDS];
    uint64_t answer[GULBERZAN_ANSWER_WORDS];
    uint64_t log[ROWS * GULBERZAN_ROW_WORDS];
    uint64_t used;
    uint64_t result;
};

/* A call whose input is `count` words from `input` on. */
typedef void (*call)(struct bench *bench, const uint64_t *input, size_t count);

static unsigned long tried;

static void fail(const char *what, const char *where, size_t place, size_t count) {
    fprintf(stderr, "overlap: %s differs with %zu words of its input inside the %s from place %zu on\n", what, count, where, place);
    exit(1);
}

static void expect(int holds, const char *what) {
    if (!holds) {
        fprintf(stderr, "overlap: not so: %s\n", what);
        exit(1);
    }
}

static void complete_done(struct bench *b, const uint64_t *ticket, size_t count) {
    (void)count;
    b->result = gulberzan_complete(b->queue, ticket, GULBERZAN_OUTCOME_DONE, 0, b->answer);
}

static void complete_failed(struct bench *b, const uint64_t *ticket, size_t count) {
    (void)count;
    b->result = gulberzan_complete(b->queue, ticket, GULBERZAN_OUTCOME_FAILED, 73, b->answer);
}

static void complete_done_recorded(struct bench *b, const uint64_t *ticket, size_t count) {
    (void)count;
    b->result = gulberzan_complete_recorded(b->queue, ticket, GULBERZAN_OUTCOME_DONE, 0, b->log, ROWS * GULBERZAN_ROW_WORDS,
                                            &b->used, b->answer);
}

static void complete_failed_recorded(struct bench *b, const uint64_t *ticket, size_t count) {
    (void)count;
    b->result = gulberzan_complete_recorded(b->queue, ticket, GULBERZAN_OUTCOME_FAILED, 73, b->log, ROWS * GULBERZAN_ROW_WORDS,
                                            &b->used, b->answer);
}

static void open_iterator(struct bench *b, const uint64_t *bindings, size_t count) {
    b->result = gulberzan_open_iterator(b->queue, 9, 4, bindings, count);
}

static void register_all(struct bench *b, const uint64_t *numbers, size_t count) {
    b->result = gulberzan_register_all(b->queue, numbers, count, b->answer);
}

static void register_all_recorded(struct bench *b, const uint64_t *numbers, size_t count) {
    b->result = gulberzan_register_all_recorded(b->queue, numbers, count, b->log, ROWS * GULBERZAN_ROW_WORDS, &b->used, b->answer);
}

static void admit(struct bench *b, const uint64_t *target, size_t count) {
    b->result = gulberzan_admit(b->queue, target, count, b->answer);
}

static void admit_recorded(struct bench *b, const uint64_t *target, size_t count) {
    b->result = gulberzan_admit_recorded(b->queue, target, count, b->log, ROWS * GULBERZAN_ROW_WORDS, &b->used, b->answer);
}

static void can_finish(struct bench *b, const uint64_t *target, size_t count) {
    b->result = gulberzan_can_finish(b->queue, target, count, b->answer);
}

static void read_iterator(struct bench *b, const uint64_t *bindings, size_t count) {
    b->result = gulberzan_read(b->queue, GULBERZAN_ITERATOR, 9, 4, bindings, count, b->log, b->used * GULBERZAN_ROW_WORDS,
                               b->answer);
}

static void read_scope(struct bench *b, const uint64_t *bindings, size_t count) {
    b->result = gulberzan_read(b->queue, GULBERZAN_SCOPE, 9, 4, bindings, count, b->log, b->used * GULBERZAN_ROW_WORDS, b->answer);
}

/* What an input may lie inside. */
static const struct part {
    const char *name;
    size_t offset, length;
} parts[] = {
    {"queue", offsetof(struct bench, queue), GULBERZAN_QUEUE_WORDS},
    {"answer", offsetof(struct bench, answer), GULBERZAN_ANSWER_WORDS},
    {"log", offsetof(struct bench, log), ROWS * GULBERZAN_ROW_WORDS},
    {"used count", offsetof(struct bench, used), 1},
};

/* The two benches differ in where the input lies, and in nothing else. */
static void compare(const char *what, call make, const struct bench *state, const struct part *part, size_t place, size_t count) {
    static struct bench apart, inside;
    static uint64_t copy[GULBERZAN_QUEUE_WORDS];
    apart = inside = *state;
    const uint64_t *input = (const uint64_t *)((const char *)&inside + part->offset) + place;
    memcpy(copy, input, count * sizeof copy[0]);
    make(&apart, copy, count);
    make(&inside, input, count);
    if (memcmp(&apart, &inside, sizeof apart)) fail(what, part->name, place, count);
    tried++;
}

/* At every place where the input fits. */
static void compare_all(const char *what, call make, const struct bench *state, size_t least, size_t most) {
    for (size_t which = 0; which < sizeof parts / sizeof parts[0]; which++)
        for (size_t count = least; count <= most; count++)
            for (size_t place = 0; place + count <= parts[which].length; place++)
                compare(what, make, state, &parts[which], place, count);
}

static void compare_calls(const struct bench *state) {
    compare_all("complete", complete_done, state, GULBERZAN_TICKET_WORDS, GULBERZAN_TICKET_WORDS);
    compare_all("complete", complete_failed, state, GULBERZAN_TICKET_WORDS, GULBERZAN_TICKET_WORDS);
    compare_all("complete_recorded", complete_done_recorded, state, GULBERZAN_TICKET_WORDS, GULBERZAN_TICKET_WORDS);
    compare_all("complete_recorded", complete_failed_recorded, state, GULBERZAN_TICKET_WORDS, GULBERZAN_TICKET_WORDS);
    compare_all("register_all", register_all, state, 0, GULBERZAN_SLOTS + 1);
    compare_all("register_all_recorded", register_all_recorded, state, 0, GULBERZAN_SLOTS + 1);
    compare_all("admit", admit, state, 0, GULBERZAN_BINDINGS + 1);
    compare_all("admit_recorded", admit_recorded, state, 0, GULBERZAN_BINDINGS + 1);
    compare_all("can_finish", can_finish, state, 0, GULBERZAN_BINDINGS + 1);
    compare_all("open_iterator", open_iterator, state, 0, GULBERZAN_BINDINGS + 1);
    compare_all("read", read_iterator, state, 0, GULBERZAN_BINDINGS + 1);
    compare_all("read", read_scope, state, 0, GULBERZAN_BINDINGS + 1);
}

/* Numbers wherever a row will be written, so that a list there is taken, and one read too late is seen. */
static void mark_log(struct bench *b) {
    for (size_t place = 0; place < ROWS * GULBERZAN_ROW_WORDS; place++) b->log[place] = 900 + place;
}

/* Many slots with numbers in them: a list of these would go on for ever if it were read as it is registered. */
static void compare_full_slots(struct bench *b) {
    uint64_t numbers[GULBERZAN_SLOTS / 2];
    for (size_t place = 0; place < GULBERZAN_SLOTS / 2; place++) numbers[place] = 100 + place;
    expect(gulberzan_register_all(b->queue, numbers, GULBERZAN_SLOTS / 2, b->answer) == GULBERZAN_OK, "half of the slots' numbers");
    compare_calls(b);
}

/* An iterator with three bindings and two undo numbers, of which the newer one is out under attempt 7; each step's state is tried. */
static void compare_states(void) {
    static struct bench b;
    const uint64_t bindings[] = {31, 32, 33};
    size_t words = ROWS * GULBERZAN_ROW_WORDS;
    mark_log(&b);
    expect(gulberzan_open_iterator(b.queue, 5, 7, bindings, 3) == GULBERZAN_OK, "an opening");
    compare_calls(&b);
    expect(gulberzan_register_recorded(b.queue, 71, b.log, words, &b.used, b.answer) == GULBERZAN_OK, "a first number");
    expect(gulberzan_register_recorded(b.queue, 72, b.log, words, &b.used, b.answer) == GULBERZAN_OK, "a second number");
    compare_calls(&b);
    expect(gulberzan_pop_recorded(b.queue, b.log, words, &b.used, b.answer) == GULBERZAN_OK, "a pop");
    compare_calls(&b);
    expect(gulberzan_admit_recorded(b.queue, bindings, 3, b.log, words, &b.used, b.answer) == GULBERZAN_OK, "an admit");
    compare_calls(&b);
    compare_full_slots(&b);
    b.used = ROWS;
    compare_calls(&b);
    b.used = ROWS + 1;
    compare_calls(&b);
    b.used = 0;
    b.queue[GULBERZAN_PHASE] = 5;
    compare_calls(&b);
}

static void expect_row(const struct bench *b, size_t place, const uint64_t want[GULBERZAN_ROW_WORDS]) {
    expect(!memcmp(b->log + place * GULBERZAN_ROW_WORDS, want, GULBERZAN_ROW_WORDS * sizeof want[0]), "the log's row of complete");
}

/* What one would write: the ticket as pop answered it, or as the queue has it. Token 1 is out under attempt 7. */
static void follow(int from_queue, int recorded) {
    static struct bench b;
    const uint64_t row[GULBERZAN_ROW_WORDS] = {GULBERZAN_ROW_COMPLETE, 1, 7, GULBERZAN_OUTCOME_DONE, 0};
    uint64_t end[GULBERZAN_QUEUE_WORDS];
    size_t words = ROWS * GULBERZAN_ROW_WORDS;
    memset(&b, 0, sizeof b);
    expect(gulberzan_open_scope(b.queue, 5, 7) == GULBERZAN_OK, "an opening");
    expect(gulberzan_register_recorded(b.queue, 71, b.log, words, &b.used, b.answer) == GULBERZAN_OK, "a first number");
    expect(gulberzan_register_recorded(b.queue, 72, b.log, words, &b.used, b.answer) == GULBERZAN_OK, "a second number");
    expect(gulberzan_pop_recorded(b.queue, b.log, words, &b.used, b.answer) == GULBERZAN_OK, "a pop");
    const uint64_t *ticket = from_queue ? b.queue + GULBERZAN_TICKET_DOMAIN : b.answer + GULBERZAN_WORK_DOMAIN;
    if (!recorded) {
        expect(gulberzan_complete(b.queue, ticket, GULBERZAN_OUTCOME_DONE, 0, b.answer) == GULBERZAN_OK, "complete");
        expect(b.answer[GULBERZAN_CASE] == GULBERZAN_CASE_DONE && !b.answer[1] && !b.answer[2] && !b.answer[3], "complete's answer");
        expect(!b.queue[GULBERZAN_SELECTED] && !b.queue[GULBERZAN_ISSUED], "nothing is out behind complete");
        return;
    }
    expect(gulberzan_complete_recorded(b.queue, ticket, GULBERZAN_OUTCOME_DONE, 0, b.log, words, &b.used, b.answer) == GULBERZAN_OK,
           "complete, recorded");
    expect(b.used == 4, "four rows");
    expect_row(&b, 3, row);
    expect(gulberzan_read(end, GULBERZAN_SCOPE, 5, 7, b.answer, 0, b.log, b.used * GULBERZAN_ROW_WORDS, b.answer) == GULBERZAN_OK,
           "the reader accepts the bench's own log");
    expect(!memcmp(end, b.queue, sizeof end), "the reader's end state is the queue");
}

/* The queue's own bindings as the list: three tokens with these numbers, recorded or not. */
static void follow_list(int recorded) {
    static struct bench b;
    const uint64_t bindings[] = {31, 32, 33};
    memset(&b, 0, sizeof b);
    expect(gulberzan_open_iterator(b.queue, 5, 7, bindings, 3) == GULBERZAN_OK, "an opening");
    (recorded ? register_all_recorded : register_all)(&b, b.queue + GULBERZAN_FIRST_BINDING, 3);
    expect(b.result == GULBERZAN_OK && b.answer[GULBERZAN_CASE] == GULBERZAN_CASE_DONE, "the bindings registered");
    expect(b.answer[GULBERZAN_VALUE] == 3 && b.queue[GULBERZAN_TOKENS_ISSUED] == 3, "three taken");
    expect(!memcmp(b.queue + GULBERZAN_FIRST_SLOT, bindings, sizeof bindings), "the slots hold the bindings");
    expect(!memcmp(b.queue + GULBERZAN_FIRST_BINDING, bindings, sizeof bindings), "the bindings stay");
    expect(b.used == (recorded ? 3 : 0), "a row a number");
}

int main(void) {
    for (int which = 0; which < 4; which++) follow(which & 1, which >> 1);
    follow_list(0);
    follow_list(1);
    compare_states();
    printf("%lu calls with their input inside what they write leave the same words\n", tried);
    return 0;
}
