/* waits.c: pops from 64 tokens of which one waits; each is put back by hand, so that the next is the same again and hangs on it. */
#include "waits.h"

#define DOMAIN 5

/* Of crates/bench_pops, which makes the queue itself: 0, or how many pops were left at a wrong one. */
uint64_t bench_pops_by_value(uint64_t place, uint64_t times);

/* Every result is kept, and every number is held against the one that waits: a refusal or another token would look like speed. */
static void expect_right(uint64_t wrong) {
    if (wrong != 0) {
        die("a pop was refused, or handed out another number");
    }
}

/* A token's number is one above it, and each token but one is popped and completed as soon as it is there. */
static uint64_t library_one_waits(uint64_t *queue, uint64_t place) {
    uint64_t answer[GULBERZAN_ANSWER_WORDS];
    uint64_t results = gulberzan_open_scope(queue, DOMAIN, 0);
    for (uint64_t token = 0; token < GULBERZAN_SLOTS; token++) {
        results |= gulberzan_register(queue, token + 1, answer);
        if (token != place) {
            results |= gulberzan_pop(queue, answer);
            results |= gulberzan_complete(queue, answer + GULBERZAN_WORK_DOMAIN, GULBERZAN_OUTCOME_DONE, 0, answer);
        }
    }
    return results;
}

static uint64_t plain_one_waits(struct plain_queue *queue, uint64_t place) {
    struct plain_work out;
    uint64_t born;
    uint64_t results = plain_open_scope(queue, DOMAIN, 0);
    for (uint64_t token = 0; token < PLAIN_SLOTS; token++) {
        results |= plain_register(queue, token + 1, &born);
        if (token != place) {
            results |= plain_pop(queue, &out);
            results |= plain_complete(queue, &out.ticket, 0, 0);
        }
    }
    return results;
}

void make_wait(struct wait *wait, uint64_t place) {
    wait->place = place;
    expect_right(library_one_waits(wait->words, place) | plain_one_waits(&wait->plain, place));
    /* An emulator translates code when it first meets it, which must not pass for the time of a batch. */
    expect_right(bench_pops_by_value(place, 1));
}

static void library_words(const void *work, size_t times) {
    struct wait wait = *(const struct wait *)work;
    uint64_t answer[GULBERZAN_ANSWER_WORDS];
    uint64_t wrong = 0;
    for (size_t time = 0; time < times; time++) {
        wrong |= gulberzan_pop(wait.words, answer);
        wrong |= answer[GULBERZAN_WORK_NUMBER] ^ (wait.place + 1);
        wait.words[GULBERZAN_FIRST_SLOT + wait.place] = answer[GULBERZAN_WORK_NUMBER];
        wait.words[GULBERZAN_SELECTED] = 0;
        wait.words[GULBERZAN_TICKET_DOMAIN] = 0;
        wait.words[GULBERZAN_TICKET_TOKEN] = 0;
        wait.words[GULBERZAN_TICKET_ATTEMPT] = 0;
        wait.words[GULBERZAN_ISSUED] = 0;
    }
    expect_right(wrong);
}

static void library_value(const void *work, size_t times) {
    expect_right(bench_pops_by_value(((const struct wait *)work)->place, times));
}

static void plain_pops(const void *work, size_t times) {
    struct wait wait = *(const struct wait *)work;
    struct plain_work out;
    uint64_t wrong = 0;
    for (size_t time = 0; time < times; time++) {
        wrong |= plain_pop(&wait.plain, &out);
        wrong |= !out.given;
        wrong |= out.number ^ (wait.place + 1);
        wait.plain.slots[wait.place] = out.number;
        wait.plain.selected = 0;
        wait.plain.ticket = (struct plain_ticket){0, 0, 0};
        wait.plain.issued = 0;
    }
    expect_right(wrong);
}

const work_many word_pops[SIDES] = {library_words, plain_pops};
const work_many value_pops[SIDES] = {library_value, plain_pops};
