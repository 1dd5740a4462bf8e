/* w2_to_w8.c: a first program: two undo numbers, one that fails and is retried; the cases W2 to W8 of docs/RULES.md. */
#include <stdio.h>
#include <stdlib.h>

#include "gulberzan.h"

#define DOMAIN 5

/* An assert that also speaks under an emulator, where the C library's own may crash the emulator before it has printed. */
#define EXPECT(fact) expect(fact, #fact, __LINE__)

static void expect(int holds, const char *fact, int line) {
    if (!holds) {
        fprintf(stderr, "line %d: not so: %s\n", line, fact);
        exit(1);
    }
}

static uint64_t queue[GULBERZAN_QUEUE_WORDS];
static uint64_t answer[GULBERZAN_ANSWER_WORDS];

/* Every word of the last answer. */
static void expect_answer(uint64_t which, uint64_t first, uint64_t second, uint64_t third, uint64_t fourth) {
    EXPECT(answer[0] == which);
    EXPECT(answer[1] == first);
    EXPECT(answer[2] == second);
    EXPECT(answer[3] == third);
    EXPECT(answer[4] == fourth);
}

static void expect_nothing(void) {
    EXPECT(gulberzan_pop(queue, answer) == GULBERZAN_OK);
    expect_answer(GULBERZAN_CASE_NOTHING, 0, 0, 0, 0);
}

static void expect_work(uint64_t token, uint64_t attempt, uint64_t number) {
    EXPECT(gulberzan_pop(queue, answer) == GULBERZAN_OK);
    expect_answer(GULBERZAN_CASE_WORK, DOMAIN, token, attempt, number);
}

/* Two steps of a run each leave an undo number behind; the run breaks off, and the newest comes out first. */
static void w2_and_w3(void) {
    EXPECT(gulberzan_open_scope(queue, DOMAIN, 0) == GULBERZAN_OK);
    EXPECT(gulberzan_register(queue, 71, answer) == GULBERZAN_OK);
    expect_answer(GULBERZAN_CASE_DONE, 0, 0, 0, 0);
    EXPECT(gulberzan_register(queue, 72, answer) == GULBERZAN_OK);
    expect_answer(GULBERZAN_CASE_DONE, 1, 0, 0, 0);
    expect_work(1, 0, 72); /* W2 */
    expect_nothing();      /* W3: one is out at a time */
}

/* It failed and is kept, so nothing older comes out before it is retried, under a new attempt. */
static void w4_and_w5(void) {
    const uint64_t ticket[GULBERZAN_TICKET_WORDS] = {DOMAIN, 1, 0};
    EXPECT(gulberzan_complete(queue, ticket, GULBERZAN_OUTCOME_FAILED, 72, answer) == GULBERZAN_OK);
    expect_answer(GULBERZAN_CASE_DONE, 0, 0, 0, 0);
    expect_nothing(); /* W4 */
    EXPECT(gulberzan_retry(queue, answer) == GULBERZAN_OK);
    expect_answer(GULBERZAN_CASE_DONE, DOMAIN, 1, 1, 0);
    expect_work(1, 1, 72); /* W5 */
}

/* A late reply to attempt 0 does not settle attempt 1, and what is done keeps nothing. */
static void w6_and_w7(void) {
    const uint64_t late[GULBERZAN_TICKET_WORDS] = {DOMAIN, 1, 0};
    const uint64_t ticket[GULBERZAN_TICKET_WORDS] = {DOMAIN, 1, 1};
    EXPECT(gulberzan_complete(queue, late, GULBERZAN_OUTCOME_DONE, 0, answer) == GULBERZAN_NOT_OUT);
    expect_answer(GULBERZAN_CASE_REFUSED, 0, 0, 0, 0);
    EXPECT(gulberzan_complete(queue, ticket, GULBERZAN_OUTCOME_DONE, 72, answer) == GULBERZAN_KEPT_ON_DONE);
    expect_answer(GULBERZAN_CASE_REFUSED, 72, 0, 0, 0); /* W7: 72 comes back */
}

/* Done, and the older one comes out. */
static void w8(void) {
    const uint64_t ticket[GULBERZAN_TICKET_WORDS] = {DOMAIN, 1, 1};
    EXPECT(gulberzan_complete(queue, ticket, GULBERZAN_OUTCOME_DONE, 0, answer) == GULBERZAN_OK);
    expect_answer(GULBERZAN_CASE_DONE, 0, 0, 0, 0);
    expect_work(0, 2, 71);
}

/* The record lies open: 71 is out under attempt 2, and no other word has anything in it. */
static void expect_record(void) {
    EXPECT(gulberzan_well_formed(queue) == 1);
    for (size_t place = 0; place < GULBERZAN_QUEUE_WORDS; place++) {
        uint64_t want = 0;
        switch (place) {
        case GULBERZAN_DOMAIN:
        case GULBERZAN_TICKET_DOMAIN:
            want = DOMAIN;
            break;
        case GULBERZAN_NEXT_ATTEMPT:
            want = 3;
            break;
        case GULBERZAN_TOKENS_ISSUED:
        case GULBERZAN_TICKET_ATTEMPT:
            want = 2;
            break;
        case GULBERZAN_SELECTED:
        case GULBERZAN_ISSUED:
            want = 1;
            break;
        case GULBERZAN_PHASE:
            want = GULBERZAN_ENDED;
            break;
        default:
            break;
        }
        EXPECT(queue[place] == want);
    }
}

int main(void) {
    w2_and_w3();
    w4_and_w5();
    w6_and_w7();
    w8();
    expect_record();
    puts("W2 to W8: every value as docs/RULES.md has it");
    return 0;
}
