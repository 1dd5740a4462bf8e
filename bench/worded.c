/* worded.c: the plain calls with the library's words: words in, a plain call, words out. */
#include "worded.h"

#include <string.h>

#include "../include/gulberzan.h"
#include "plain.h"

/* False where the words encode no record; a plain record's marks are bytes, so wide ones are looked at here. */
static bool load(const uint64_t *w, struct plain_queue *q) {
    bool ticket = w[GULBERZAN_TICKET_DOMAIN] || w[GULBERZAN_TICKET_TOKEN] || w[GULBERZAN_TICKET_ATTEMPT];
    if (w[GULBERZAN_KIND] > 1 || w[GULBERZAN_SELECTED] > 1 || w[GULBERZAN_FAILED] > 1 || w[GULBERZAN_ISSUED] > 1 ||
        w[GULBERZAN_PHASE] > GULBERZAN_CLOSED || (ticket && !w[GULBERZAN_SELECTED])) {
        return false;
    }
    q->kind = (uint8_t)w[GULBERZAN_KIND];
    q->domain = w[GULBERZAN_DOMAIN];
    q->next = w[GULBERZAN_NEXT_ATTEMPT];
    memcpy(q->slots, w + GULBERZAN_FIRST_SLOT, sizeof q->slots);
    q->tokens = w[GULBERZAN_TOKENS_ISSUED];
    q->selected = (uint8_t)w[GULBERZAN_SELECTED];
    q->ticket.domain = w[GULBERZAN_TICKET_DOMAIN];
    q->ticket.token = w[GULBERZAN_TICKET_TOKEN];
    q->ticket.attempt = w[GULBERZAN_TICKET_ATTEMPT];
    q->failed = (uint8_t)w[GULBERZAN_FAILED];
    q->issued = (uint8_t)w[GULBERZAN_ISSUED];
    q->phase = (uint8_t)w[GULBERZAN_PHASE];
    memcpy(q->bindings, w + GULBERZAN_FIRST_BINDING, sizeof q->bindings);
    q->bound = w[GULBERZAN_BINDINGS_USED];
    return true;
}

static void store(uint64_t *w, const struct plain_queue *q) {
    w[GULBERZAN_KIND] = q->kind;
    w[GULBERZAN_DOMAIN] = q->domain;
    w[GULBERZAN_NEXT_ATTEMPT] = q->next;
    memcpy(w + GULBERZAN_FIRST_SLOT, q->slots, sizeof q->slots);
    w[GULBERZAN_TOKENS_ISSUED] = q->tokens;
    w[GULBERZAN_SELECTED] = q->selected;
    w[GULBERZAN_TICKET_DOMAIN] = q->selected ? q->ticket.domain : 0;
    w[GULBERZAN_TICKET_TOKEN] = q->selected ? q->ticket.token : 0;
    w[GULBERZAN_TICKET_ATTEMPT] = q->selected ? q->ticket.attempt : 0;
    w[GULBERZAN_FAILED] = q->failed;
    w[GULBERZAN_ISSUED] = q->issued;
    w[GULBERZAN_PHASE] = q->phase;
    memcpy(w + GULBERZAN_FIRST_BINDING, q->bindings, sizeof q->bindings);
    w[GULBERZAN_BINDINGS_USED] = q->bound;
}

/* The answer of five words; a refusal has case 0 and the number that comes back. */
static uint64_t tell(uint64_t *answer, uint64_t result, uint64_t back, uint64_t done_case) {
    memset(answer, 0, GULBERZAN_ANSWER_WORDS * sizeof answer[0]);
    answer[GULBERZAN_CASE] = result == 0 ? done_case : 0;
    answer[GULBERZAN_VALUE] = result == 0 ? 0 : back;
    return result;
}

static uint64_t tell_value(uint64_t *answer, uint64_t result, uint64_t back, uint64_t value) {
    tell(answer, result, back, 1);
    if (result == 0) {
        answer[GULBERZAN_VALUE] = value;
    }
    return result;
}

static uint64_t tell_yes(uint64_t *answer, uint64_t result, bool yes) {
    return tell(answer, result, 0, yes ? GULBERZAN_CASE_YES : GULBERZAN_CASE_NO);
}

static void put_ticket(uint64_t *answer, const struct plain_ticket *ticket) {
    answer[GULBERZAN_WORK_DOMAIN] = ticket->domain;
    answer[GULBERZAN_WORK_TOKEN] = ticket->token;
    answer[GULBERZAN_WORK_ATTEMPT] = ticket->attempt;
}

static uint64_t tell_work(uint64_t *answer, uint64_t result, const struct plain_work *work) {
    bool given = result == 0 && work->given;
    tell(answer, result, 0, given ? GULBERZAN_CASE_WORK : GULBERZAN_CASE_NOTHING);
    if (given) {
        put_ticket(answer, &work->ticket);
        answer[GULBERZAN_WORK_NUMBER] = work->number;
    }
    return result;
}

static uint64_t tell_ticket(uint64_t *answer, uint64_t result, const struct plain_ticket *ticket) {
    tell(answer, result, 0, GULBERZAN_CASE_DONE);
    if (result == 0) {
        put_ticket(answer, ticket);
    }
    return result;
}

uint64_t worded_open_scope(uint64_t *queue, uint64_t domain, uint64_t first_attempt) {
    struct plain_queue q;
    uint64_t result = plain_open_scope(&q, domain, first_attempt);
    store(queue, &q);
    return result;
}

uint64_t worded_open_iterator(uint64_t *queue, uint64_t domain, uint64_t first_attempt, const uint64_t *bindings,
                              size_t count) {
    struct plain_queue q;
    uint64_t result = plain_open_iterator(&q, domain, first_attempt, bindings, count);
    store(queue, &q);
    return result;
}

uint64_t worded_well_formed(const uint64_t *queue) {
    struct plain_queue q;
    return load(queue, &q) && plain_well_formed(&q);
}

/* A call on loaded words; what it leaves is stored, which after a refusal are the same words, but for what was taken of a list. */
#define ON_QUEUE(result, queue, call)                                                                                  \
    struct plain_queue q;                                                                                              \
    uint64_t result = PLAIN_BROKEN;                                                                                    \
    if (load(queue, &q)) {                                                                                             \
        result = call;                                                                                                 \
        store(queue, &q);                                                                                              \
    }

uint64_t worded_register(uint64_t *queue, uint64_t number, uint64_t *answer) {
    uint64_t token = 0;
    ON_QUEUE(result, queue, plain_register(&q, number, &token))
    return tell_value(answer, result, number, token);
}

uint64_t worded_land(uint64_t *queue, uint64_t number, uint64_t *answer) {
    uint64_t token = 0;
    ON_QUEUE(result, queue, plain_land(&q, number, &token))
    return tell_value(answer, result, number, token);
}

/* How many were taken is told with a refusal too. */
uint64_t worded_register_all(uint64_t *queue, const uint64_t *numbers, size_t count, uint64_t *answer) {
    uint64_t taken = 0;
    ON_QUEUE(result, queue, plain_register_all(&q, numbers, count, &taken))
    return tell_value(answer, result, taken, taken);
}

uint64_t worded_pop(uint64_t *queue, uint64_t *answer) {
    struct plain_work work = {0};
    ON_QUEUE(result, queue, plain_pop(&q, &work))
    return tell_work(answer, result, &work);
}

uint64_t worded_complete(uint64_t *queue, const uint64_t *ticket, uint64_t outcome, uint64_t kept, uint64_t *answer) {
    struct plain_ticket of = {ticket[0], ticket[1], ticket[2]};
    ON_QUEUE(result, queue, plain_complete(&q, &of, outcome, kept))
    return tell(answer, result, kept, GULBERZAN_CASE_DONE);
}

uint64_t worded_retry(uint64_t *queue, uint64_t *answer) {
    struct plain_ticket ticket = {0};
    ON_QUEUE(result, queue, plain_retry(&q, &ticket))
    return tell_ticket(answer, result, &ticket);
}

uint64_t worded_admit(uint64_t *queue, const uint64_t *target, size_t count, uint64_t *answer) {
    bool yes = false;
    ON_QUEUE(result, queue, plain_admit(&q, target, count, &yes))
    return tell_yes(answer, result, yes);
}

uint64_t worded_admit_without(uint64_t *queue, uint64_t *answer) {
    bool yes = false;
    ON_QUEUE(result, queue, plain_admit_without(&q, &yes))
    return tell_yes(answer, result, yes);
}

uint64_t worded_end(uint64_t *queue, uint64_t *answer) {
    bool yes = false;
    ON_QUEUE(result, queue, plain_end(&q, &yes))
    return tell_yes(answer, result, yes);
}

uint64_t worded_cancel(uint64_t *queue, uint64_t *answer) {
    ON_QUEUE(result, queue, plain_cancel(&q))
    return tell(answer, result, 0, GULBERZAN_CASE_DONE);
}

/* The questions are alike but for the plain call. */
static uint64_t asked(const uint64_t *queue, uint64_t (*question)(const struct plain_queue *, bool *),
                      uint64_t *answer) {
    struct plain_queue q;
    bool yes = false;
    uint64_t result = load(queue, &q) ? question(&q, &yes) : PLAIN_BROKEN;
    return tell_yes(answer, result, yes);
}

uint64_t worded_is_empty(const uint64_t *queue, uint64_t *answer) { return asked(queue, plain_is_empty, answer); }
uint64_t worded_is_issued(const uint64_t *queue, uint64_t *answer) { return asked(queue, plain_is_issued, answer); }
uint64_t worded_is_pending(const uint64_t *queue, uint64_t *answer) { return asked(queue, plain_is_pending, answer); }
uint64_t worded_is_settled(const uint64_t *queue, uint64_t *answer) { return asked(queue, plain_is_settled, answer); }
uint64_t worded_is_cancelled(const uint64_t *queue, uint64_t *answer) {
    return asked(queue, plain_is_cancelled, answer);
}
uint64_t worded_has_failed(const uint64_t *queue, uint64_t *answer) { return asked(queue, plain_has_failed, answer); }
uint64_t worded_can_retry(const uint64_t *queue, uint64_t *answer) { return asked(queue, plain_can_retry, answer); }

uint64_t worded_can_finish(const uint64_t *queue, const uint64_t *target, size_t count, uint64_t *answer) {
    struct plain_queue q;
    bool yes = false;
    uint64_t result = load(queue, &q) ? plain_can_finish(&q, target, count, &yes) : PLAIN_BROKEN;
    return tell_yes(answer, result, yes);
}

uint64_t worded_domain(const uint64_t *queue, uint64_t *answer) {
    struct plain_queue q;
    uint64_t domain = 0;
    uint64_t result = load(queue, &q) ? plain_domain(&q, &domain) : PLAIN_BROKEN;
    return tell_value(answer, result, 0, domain);
}

uint64_t worded_register_recorded(uint64_t *queue, uint64_t number, uint64_t *log, size_t words, uint64_t *used,
                                  uint64_t *answer) {
    struct plain_log lent = {log, words, *used};
    uint64_t token = 0;
    ON_QUEUE(result, queue, plain_register_recorded(&q, number, &lent, &token))
    *used = lent.rows;
    return tell_value(answer, result, number, token);
}

uint64_t worded_land_recorded(uint64_t *queue, uint64_t number, uint64_t *log, size_t words, uint64_t *used,
                              uint64_t *answer) {
    struct plain_log lent = {log, words, *used};
    uint64_t token = 0;
    ON_QUEUE(result, queue, plain_land_recorded(&q, number, &lent, &token))
    *used = lent.rows;
    return tell_value(answer, result, number, token);
}

uint64_t worded_register_all_recorded(uint64_t *queue, const uint64_t *numbers, size_t count, uint64_t *log,
                                      size_t words, uint64_t *used, uint64_t *answer) {
    struct plain_log lent = {log, words, *used};
    uint64_t taken = 0;
    ON_QUEUE(result, queue, plain_register_all_recorded(&q, numbers, count, &lent, &taken))
    *used = lent.rows;
    return tell_value(answer, result, taken, taken);
}

uint64_t worded_pop_recorded(uint64_t *queue, uint64_t *log, size_t words, uint64_t *used, uint64_t *answer) {
    struct plain_log lent = {log, words, *used};
    struct plain_work work = {0};
    ON_QUEUE(result, queue, plain_pop_recorded(&q, &lent, &work))
    *used = lent.rows;
    return tell_work(answer, result, &work);
}

uint64_t worded_complete_recorded(uint64_t *queue, const uint64_t *ticket, uint64_t outcome, uint64_t kept,
                                  uint64_t *log, size_t words, uint64_t *used, uint64_t *answer) {
    struct plain_log lent = {log, words, *used};
    struct plain_ticket of = {ticket[0], ticket[1], ticket[2]};
    ON_QUEUE(result, queue, plain_complete_recorded(&q, &of, outcome, kept, &lent))
    *used = lent.rows;
    return tell(answer, result, kept, GULBERZAN_CASE_DONE);
}

uint64_t worded_retry_recorded(uint64_t *queue, uint64_t *log, size_t words, uint64_t *used, uint64_t *answer) {
    struct plain_log lent = {log, words, *used};
    struct plain_ticket ticket = {0};
    ON_QUEUE(result, queue, plain_retry_recorded(&q, &lent, &ticket))
    *used = lent.rows;
    return tell_ticket(answer, result, &ticket);
}

uint64_t worded_admit_recorded(uint64_t *queue, const uint64_t *target, size_t count, uint64_t *log, size_t words,
                               uint64_t *used, uint64_t *answer) {
    struct plain_log lent = {log, words, *used};
    bool yes = false;
    ON_QUEUE(result, queue, plain_admit_recorded(&q, target, count, &lent, &yes))
    *used = lent.rows;
    return tell_yes(answer, result, yes);
}

uint64_t worded_admit_without_recorded(uint64_t *queue, uint64_t *log, size_t words, uint64_t *used,
                                       uint64_t *answer) {
    struct plain_log lent = {log, words, *used};
    bool yes = false;
    ON_QUEUE(result, queue, plain_admit_without_recorded(&q, &lent, &yes))
    *used = lent.rows;
    return tell_yes(answer, result, yes);
}

uint64_t worded_end_recorded(uint64_t *queue, uint64_t *log, size_t words, uint64_t *used, uint64_t *answer) {
    struct plain_log lent = {log, words, *used};
    bool yes = false;
    ON_QUEUE(result, queue, plain_end_recorded(&q, &lent, &yes))
    *used = lent.rows;
    return tell_yes(answer, result, yes);
}

uint64_t worded_cancel_recorded(uint64_t *queue, uint64_t *log, size_t words, uint64_t *used, uint64_t *answer) {
    struct plain_log lent = {log, words, *used};
    ON_QUEUE(result, queue, plain_cancel_recorded(&q, &lent))
    *used = lent.rows;
    return tell(answer, result, 0, GULBERZAN_CASE_DONE);
}

uint64_t worded_read(uint64_t *queue, uint64_t kind, uint64_t domain, uint64_t first_attempt, const uint64_t *bindings,
                     size_t count, const uint64_t *log, size_t words, uint64_t *answer) {
    if (kind > 1) {
        return tell(answer, PLAIN_BROKEN, 0, 0);
    }
    struct plain_opening opening = {(enum plain_kind)kind, domain, first_attempt, bindings, count};
    struct plain_queue q;
    uint64_t place = 0;
    uint64_t result = plain_read(&q, &opening, log, words, &place);
    store(queue, &q);
    return tell_value(answer, result, place, place);
}
