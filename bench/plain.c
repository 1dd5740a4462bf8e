/* plain.c: the queue in plain C: its record, its check, and its calls in place, with the rules' checks in their order (R64). */
#include "plain.h"

#include <string.h>

#include "plain_steps.h"

/* The record and its check. */

static bool marks_fit(const struct plain_queue *q) {
    if (!q->selected) {
        return !q->failed && !q->issued;
    }
    if (q->ticket.domain != q->domain || q->ticket.token >= q->tokens || q->ticket.attempt >= q->next) {
        return false;
    }
    if (q->failed) {
        return !q->issued;
    }
    return q->issued == (q->slots[q->ticket.token] == 0);
}

bool plain_well_formed(const struct plain_queue *q) {
    if (q->kind > PLAIN_ITERATOR || q->phase > PLAIN_CLOSED || q->selected > 1 || q->failed > 1 || q->issued > 1) {
        return false;
    }
    if (q->tokens > PLAIN_SLOTS || q->bound > PLAIN_BINDINGS) {
        return false;
    }
    if (q->kind == PLAIN_SCOPE && (q->bound != 0 || (q->phase != PLAIN_ENDED && q->phase != PLAIN_CLOSED))) {
        return false;
    }
    return marks_fit(q) && all_zero(q->slots, q->tokens, PLAIN_SLOTS) &&
           all_zero(q->bindings, q->bound, PLAIN_BINDINGS);
}

uint64_t plain_open_scope(struct plain_queue *q, uint64_t domain, uint64_t first) {
    memset(q, 0, sizeof *q);
    q->kind = PLAIN_SCOPE;
    q->domain = domain;
    q->next = first;
    q->phase = PLAIN_ENDED;
    return PLAIN_DONE;
}

uint64_t plain_open_iterator(struct plain_queue *q, uint64_t domain, uint64_t first, const uint64_t *bindings,
                             size_t count) {
    if (count > PLAIN_BINDINGS) {
        plain_open_scope(q, 0, 0);
        return PLAIN_TOO_MANY_BINDINGS;
    }
    plain_open_scope(q, domain, first);
    q->kind = PLAIN_ITERATOR;
    q->phase = PLAIN_IDLE;
    q->bound = count;
    for (size_t i = 0; i < count; i++) {
        q->bindings[i] = bindings[i];
    }
    return PLAIN_DONE;
}

/* The calls on a queue alone. */

static uint64_t born(struct plain_queue *q, uint64_t number, bool lands, uint64_t *token) {
    if (!plain_well_formed(q)) {
        return PLAIN_BROKEN;
    }
    uint64_t refusal = birth_refusal(q, number, lands);
    if (refusal == PLAIN_DONE) {
        *token = take_birth(q, number, lands);
    }
    return refusal;
}

uint64_t plain_register(struct plain_queue *q, uint64_t number, uint64_t *token) {
    return born(q, number, false, token);
}

uint64_t plain_land(struct plain_queue *q, uint64_t number, uint64_t *token) {
    return born(q, number, true, token);
}

/* A number more leaves a well-formed record well formed, so that is asked once for all of them. */
uint64_t plain_register_all(struct plain_queue *q, const uint64_t *numbers, size_t count, uint64_t *taken) {
    *taken = 0;
    if (!plain_well_formed(q)) {
        return PLAIN_BROKEN;
    }
    uint64_t refusal = PLAIN_DONE;
    size_t place = 0;
    while (place < count && (refusal = birth_refusal(q, numbers[place], false)) == PLAIN_DONE) {
        take_birth(q, numbers[place++], false);
    }
    *taken = place;
    return refusal;
}

uint64_t plain_pop(struct plain_queue *q, struct plain_work *work) {
    if (!plain_well_formed(q)) {
        return PLAIN_BROKEN;
    }
    int token = pop_choice(q);
    uint64_t refusal = pop_refusal(q, token);
    if (refusal != PLAIN_DONE) {
        return refusal;
    }
    work->given = token >= 0;
    if (work->given) {
        work->number = take_pop(q, token);
        work->ticket = q->ticket;
    }
    return PLAIN_DONE;
}

uint64_t plain_complete(struct plain_queue *q, const struct plain_ticket *ticket, uint64_t outcome, uint64_t kept) {
    if (!plain_well_formed(q)) {
        return PLAIN_BROKEN;
    }
    uint64_t refusal = complete_refusal(q, ticket, outcome, kept);
    if (refusal == PLAIN_DONE) {
        take_complete(q, outcome, kept);
    }
    return refusal;
}

uint64_t plain_retry(struct plain_queue *q, struct plain_ticket *ticket) {
    if (!plain_well_formed(q)) {
        return PLAIN_BROKEN;
    }
    uint64_t refusal = retry_refusal(q);
    if (refusal == PLAIN_DONE) {
        take_retry(q);
        *ticket = q->ticket;
    }
    return refusal;
}

uint64_t plain_admit(struct plain_queue *q, const uint64_t *target, size_t count, bool *yes) {
    if (!plain_well_formed(q)) {
        return PLAIN_BROKEN;
    }
    if (matches(q, target, count)) {
        q->phase = next_phase[q->phase][ADMIT];
    }
    *yes = pending(q);
    return PLAIN_DONE;
}

uint64_t plain_admit_without(struct plain_queue *q, bool *yes) {
    return plain_is_pending(q, yes);
}

uint64_t plain_end(struct plain_queue *q, bool *yes) {
    if (!plain_well_formed(q)) {
        return PLAIN_BROKEN;
    }
    *yes = pending(q);
    q->phase = next_phase[q->phase][END];
    return PLAIN_DONE;
}

uint64_t plain_cancel(struct plain_queue *q) {
    if (!plain_well_formed(q)) {
        return PLAIN_BROKEN;
    }
    q->phase = next_phase[q->phase][CANCEL];
    return PLAIN_DONE;
}

/* The questions. */

uint64_t plain_is_empty(const struct plain_queue *q, bool *yes) {
    if (!plain_well_formed(q)) {
        return PLAIN_BROKEN;
    }
    *yes = !q->selected && newest_waiting(q) < 0;
    return PLAIN_DONE;
}

uint64_t plain_is_issued(const struct plain_queue *q, bool *yes) {
    if (!plain_well_formed(q)) {
        return PLAIN_BROKEN;
    }
    *yes = q->issued;
    return PLAIN_DONE;
}

uint64_t plain_is_pending(const struct plain_queue *q, bool *yes) {
    if (!plain_well_formed(q)) {
        return PLAIN_BROKEN;
    }
    *yes = pending(q);
    return PLAIN_DONE;
}

uint64_t plain_is_settled(const struct plain_queue *q, bool *yes) {
    if (!plain_well_formed(q)) {
        return PLAIN_BROKEN;
    }
    *yes = settled(q);
    return PLAIN_DONE;
}

uint64_t plain_is_cancelled(const struct plain_queue *q, bool *yes) {
    if (!plain_well_formed(q)) {
        return PLAIN_BROKEN;
    }
    *yes = cancelled(q);
    return PLAIN_DONE;
}

uint64_t plain_has_failed(const struct plain_queue *q, bool *yes) {
    if (!plain_well_formed(q)) {
        return PLAIN_BROKEN;
    }
    *yes = q->failed;
    return PLAIN_DONE;
}

uint64_t plain_can_retry(const struct plain_queue *q, bool *yes) {
    if (!plain_well_formed(q)) {
        return PLAIN_BROKEN;
    }
    *yes = retry_refusal(q) == PLAIN_DONE;
    return PLAIN_DONE;
}

uint64_t plain_can_finish(const struct plain_queue *q, const uint64_t *target, size_t count, bool *yes) {
    if (!plain_well_formed(q)) {
        return PLAIN_BROKEN;
    }
    *yes = !q->selected && !pending(q) && !cancelled(q) && matches(q, target, count);
    return PLAIN_DONE;
}

uint64_t plain_domain(const struct plain_queue *q, uint64_t *domain) {
    if (!plain_well_formed(q)) {
        return PLAIN_BROKEN;
    }
    *domain = q->domain;
    return PLAIN_DONE;
}

uint64_t plain_waiting(const struct plain_queue *q) {
    uint64_t waiting = 0;
    for (uint64_t token = 0; token < q->tokens; token++) {
        if (q->slots[token] != 0 && !(q->selected && q->ticket.token == token)) {
            waiting++;
        }
    }
    return waiting;
}
