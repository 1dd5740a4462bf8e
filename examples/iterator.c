/* iterator.c: an iterator steps over a simulator's feeders. Each step is admitted for the bound feeders alone, lands its undo number,
   and the stage is ended; a step that is broken off by cancel still lands. */
#include <stdio.h>
#include <stdlib.h>

#include "gulberzan.h"

#define COUNT(list) (sizeof(list) / sizeof(list)[0])

static uint64_t queue[GULBERZAN_QUEUE_WORDS], answer[GULBERZAN_ANSWER_WORDS];

static void need(uint64_t result, const char *call) {
    char name[GULBERZAN_TEXT_BYTES];
    if (result == GULBERZAN_OK) return;
    gulberzan_result_text(result, name);
    fprintf(stderr, "%s: %s\n", call, name);
    exit(1);
}

static const char *yes_or_no(void) {
    switch (answer[GULBERZAN_CASE]) {
    case GULBERZAN_TOLD_YES:
        return "yes";
    case GULBERZAN_TOLD_NO:
        return "no";
    default:
        return "refused";
    }
}

int main(void) {
    const uint64_t feeders[] = {31, 32, 33};
    const uint64_t others[] = {31, 34};
    const uint64_t turned[] = {33, 31, 32, 31}; /* the same members: order and repeats do not count */
    need(gulberzan_open_iterator(queue, 5, 0, feeders, COUNT(feeders)), "open_iterator");
    need(gulberzan_admit(queue, others, COUNT(others), answer), "admit");
    printf("admitted for other feeders: %s\n", yes_or_no());
    need(gulberzan_admit(queue, turned, COUNT(turned), answer), "admit");
    printf("admitted for the bound ones: %s\n", yes_or_no());
    need(gulberzan_land(queue, 71, answer), "land");
    printf("landed as token %llu\n", (unsigned long long)answer[GULBERZAN_VALUE]);
    /* The queue's own bindings as the target: a list may lie inside the queue. */
    need(gulberzan_admit(queue, queue + GULBERZAN_FIRST_BINDING, queue[GULBERZAN_BINDINGS_USED], answer), "admit");
    need(gulberzan_cancel(queue, answer), "cancel");
    need(gulberzan_land(queue, 72, answer), "land");
    printf("landed as token %llu, behind the cancel\n", (unsigned long long)answer[GULBERZAN_VALUE]);
    need(gulberzan_is_cancelled(queue, answer), "is_cancelled");
    printf("cancelled: %s\n", yes_or_no());
    uint64_t result = gulberzan_land(queue, 73, answer);
    char name[GULBERZAN_TEXT_BYTES];
    gulberzan_result_text(result, name);
    printf("a land with no step: %s, and %llu comes back\n", name, (unsigned long long)answer[GULBERZAN_VALUE]);
    return 0;
}
