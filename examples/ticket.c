/* ticket.c: a ticket carried from pop to complete. It may stay where it lies, in pop's answer or in the queue; who starts other work
   in between keeps a copy, as here. Each result that is a refusal is told by its name. */
#include <stdio.h>
#include <stdlib.h>
#include <string.h>

#include "gulberzan.h"

/* A call that must not be refused. */
static void need(uint64_t result, const char *call) {
    char name[GULBERZAN_TEXT_BYTES];
    if (result == GULBERZAN_OK) return;
    gulberzan_result_text(result, name);
    fprintf(stderr, "%s: %s\n", call, name);
    exit(1);
}

/* Plays an undo number back; the contactor of number 72 jams the first time. */
static int play_back(uint64_t number) {
    static int jammed;
    if (number == 72 && !jammed++) return 0;
    return 1;
}

int main(void) {
    uint64_t queue[GULBERZAN_QUEUE_WORDS], answer[GULBERZAN_ANSWER_WORDS], ticket[GULBERZAN_TICKET_WORDS];
    gulberzan_open_scope(queue, 5, 0);
    need(gulberzan_register(queue, 71, answer), "register");
    need(gulberzan_register(queue, 72, answer), "register");
    for (;;) {
        need(gulberzan_pop(queue, answer), "pop");
        if (answer[GULBERZAN_CASE] == GULBERZAN_POP_NOTHING) break;
        uint64_t number = answer[GULBERZAN_WORK_NUMBER];
        memcpy(ticket, answer + GULBERZAN_WORK_DOMAIN, sizeof ticket);
        if (play_back(number)) {
            need(gulberzan_complete(queue, ticket, GULBERZAN_OUTCOME_DONE, 0, answer), "complete");
            printf("undo %llu: done, attempt %llu\n", (unsigned long long)number, (unsigned long long)ticket[2]);
            continue;
        }
        /* The same with the ticket as the queue has it: a call reads its ticket before it writes. */
        need(gulberzan_complete(queue, queue + GULBERZAN_TICKET_DOMAIN, GULBERZAN_OUTCOME_FAILED, number, answer), "complete");
        printf("undo %llu: failed, attempt %llu\n", (unsigned long long)number, (unsigned long long)ticket[2]);
        need(gulberzan_retry(queue, answer), "retry");
    }
    need(gulberzan_is_empty(queue, answer), "is_empty");
    return answer[GULBERZAN_CASE] == GULBERZAN_TOLD_YES ? 0 : 1;
}
