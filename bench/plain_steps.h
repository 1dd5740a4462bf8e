/* plain_steps.h: what the plain calls and the plain log share: the table of phases, and each step's refusal and change. */
#ifndef PLAIN_STEPS_H
#define PLAIN_STEPS_H

#include "plain.h"

enum event { ADMIT, LAND, END, CANCEL };

/* R28: the table of phases; where it says that a phase stays, that phase stands here. */
static const uint8_t next_phase[5][4] = {
    [PLAIN_IDLE] = {PLAIN_PENDING, PLAIN_IDLE, PLAIN_IDLE, PLAIN_CLOSED},
    [PLAIN_PENDING] = {PLAIN_PENDING, PLAIN_IDLE, PLAIN_ENDED, PLAIN_STOPPING},
    [PLAIN_ENDED] = {PLAIN_ENDED, PLAIN_ENDED, PLAIN_ENDED, PLAIN_CLOSED},
    [PLAIN_STOPPING] = {PLAIN_STOPPING, PLAIN_CLOSED, PLAIN_CLOSED, PLAIN_STOPPING},
    [PLAIN_CLOSED] = {PLAIN_CLOSED, PLAIN_CLOSED, PLAIN_CLOSED, PLAIN_CLOSED},
};

static inline bool all_zero(const uint64_t *words, size_t from, size_t to) {
    for (size_t i = from; i < to; i++) {
        if (words[i] != 0) {
            return false;
        }
    }
    return true;
}

/* What the steps ask of a well-formed record. */

static inline bool pending(const struct plain_queue *q) {
    return q->phase == PLAIN_PENDING || q->phase == PLAIN_STOPPING;
}

static inline bool settled(const struct plain_queue *q) {
    return q->phase == PLAIN_ENDED || q->phase == PLAIN_CLOSED;
}

static inline bool cancelled(const struct plain_queue *q) {
    return q->phase == PLAIN_STOPPING || q->phase == PLAIN_CLOSED;
}

static inline uint64_t retry_refusal(const struct plain_queue *q) {
    if (!q->failed) {
        return PLAIN_NO_RETRY;
    }
    if (q->slots[q->ticket.token] == 0) {
        return PLAIN_NOTHING_KEPT;
    }
    return q->next < UINT64_MAX ? PLAIN_DONE : PLAIN_NO_FURTHER_ATTEMPT;
}

/* The newest occupied slot; asked only where nothing is selected, so each occupied slot waits. */
static inline int newest_waiting(const struct plain_queue *q) {
    for (int token = (int)q->tokens - 1; token >= 0; token--) {
        if (q->slots[token] != 0) {
            return token;
        }
    }
    return -1;
}

static inline bool is_member(uint64_t value, const uint64_t *set, size_t count) {
    for (size_t i = 0; i < count; i++) {
        if (set[i] == value) {
            return true;
        }
    }
    return false;
}

static inline bool has_all(const uint64_t *members, size_t members_count, const uint64_t *set, size_t count) {
    for (size_t i = 0; i < members_count; i++) {
        if (!is_member(members[i], set, count)) {
            return false;
        }
    }
    return true;
}

static inline bool matches(const struct plain_queue *q, const uint64_t *target, size_t count) {
    return has_all(target, count, q->bindings, q->bound) && has_all(q->bindings, q->bound, target, count);
}

/* The steps: each is asked for its refusal first, and then taken; both only of a well-formed record. */

static inline uint64_t birth_refusal(const struct plain_queue *q, uint64_t number, bool lands) {
    if (number == 0) {
        return PLAIN_BAD_NUMBER;
    }
    if (lands && !pending(q)) {
        return PLAIN_NOT_PENDING;
    }
    return q->tokens == PLAIN_SLOTS ? PLAIN_NO_SLOT : PLAIN_DONE;
}

static inline uint64_t take_birth(struct plain_queue *q, uint64_t number, bool lands) {
    uint64_t token = q->tokens++;
    q->slots[token] = number;
    if (lands) {
        q->phase = next_phase[q->phase][LAND];
    }
    return token;
}

/* The token that pop would hand out, or -1 for Nothing. */
static inline int pop_choice(const struct plain_queue *q) {
    if (q->issued || q->failed) {
        return -1;
    }
    return q->selected ? (int)q->ticket.token : newest_waiting(q);
}

static inline uint64_t pop_refusal(const struct plain_queue *q, int token) {
    if (token < 0) {
        return PLAIN_DONE;
    }
    if (q->slots[token] == 0) {
        return PLAIN_HOLLOW;
    }
    return !q->selected && q->next == UINT64_MAX ? PLAIN_NO_ATTEMPT : PLAIN_DONE;
}

static inline uint64_t take_pop(struct plain_queue *q, int token) {
    uint64_t number = q->slots[token];
    if (!q->selected) {
        q->selected = 1;
        q->ticket = (struct plain_ticket){q->domain, (uint64_t)token, q->next++};
    }
    q->slots[token] = 0;
    q->issued = 1;
    return number;
}

static inline uint64_t complete_refusal(const struct plain_queue *q, const struct plain_ticket *t, uint64_t outcome,
                                 uint64_t kept) {
    if (outcome > 1) {
        return PLAIN_BAD_OUTCOME;
    }
    if (!q->issued || t->domain != q->ticket.domain || t->token != q->ticket.token ||
        t->attempt != q->ticket.attempt) {
        return PLAIN_NOT_OUT;
    }
    return outcome == 0 && kept != 0 ? PLAIN_KEPT_ON_DONE : PLAIN_DONE;
}

static inline void take_complete(struct plain_queue *q, uint64_t outcome, uint64_t kept) {
    q->slots[q->ticket.token] = kept;
    q->issued = 0;
    if (outcome == 0) {
        q->selected = 0;
    } else {
        q->failed = 1;
    }
}

static inline void take_retry(struct plain_queue *q) {
    q->ticket.attempt = q->next++;
    q->failed = 0;
}

#endif
