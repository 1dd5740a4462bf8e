/* plain.h: the queue, its log and its reader in plain C, written from the rules; the benchmark's other side. */
#ifndef PLAIN_H
#define PLAIN_H

#include <stdbool.h>
#include <stddef.h>
#include <stdint.h>

#define PLAIN_SLOTS 64
#define PLAIN_BINDINGS 16
#define PLAIN_ROW_WORDS 5
#define PLAIN_LOG_ROWS 4096

/* R63: the numbers of refusal; 0 is done. */
enum plain_result {
    PLAIN_DONE = 0,
    PLAIN_BROKEN = 1,
    PLAIN_BAD_NUMBER = 2,
    PLAIN_NO_SLOT = 3,
    PLAIN_NOT_PENDING = 4,
    PLAIN_NO_ATTEMPT = 5,
    PLAIN_NOT_OUT = 6,
    PLAIN_KEPT_ON_DONE = 7,
    PLAIN_NO_RETRY = 8,
    PLAIN_HOLLOW = 9,
    PLAIN_TOO_MANY_BINDINGS = 14,
    PLAIN_BAD_OUTCOME = 15,
    PLAIN_BAD_LOG = 16,
    PLAIN_LOG_FULL = 17,
    PLAIN_NOTHING_KEPT = 20,
    PLAIN_NO_FURTHER_ATTEMPT = 21
};

enum plain_kind { PLAIN_SCOPE, PLAIN_ITERATOR };
enum plain_phase { PLAIN_IDLE, PLAIN_PENDING, PLAIN_ENDED, PLAIN_STOPPING, PLAIN_CLOSED };

struct plain_ticket {
    uint64_t domain;
    uint64_t token;
    uint64_t attempt;
};

/* Counts are as wide as a word and marks are bytes, so that a spoiled record can be said and refused. */
struct plain_queue {
    uint64_t domain;
    uint64_t next;
    uint64_t tokens;
    uint64_t bound;
    struct plain_ticket ticket; /* of no meaning unless selected */
    uint8_t kind;
    uint8_t phase;
    uint8_t selected;
    uint8_t failed;
    uint8_t issued;
    uint64_t slots[PLAIN_SLOTS];
    uint64_t bindings[PLAIN_BINDINGS];
};

/* What pop hands out; given is false for Nothing. */
struct plain_work {
    bool given;
    struct plain_ticket ticket;
    uint64_t number;
};

/* Memory that a recorded call writes its row to; rows is the used count. */
struct plain_log {
    uint64_t *words;
    size_t count;
    uint64_t rows;
};

/* Every call answers a number of refusal, and writes its answer only with 0; but how many of a list were taken is always written. */
uint64_t plain_open_scope(struct plain_queue *q, uint64_t domain, uint64_t first);
uint64_t plain_open_iterator(struct plain_queue *q, uint64_t domain, uint64_t first, const uint64_t *bindings,
                             size_t count);
bool plain_well_formed(const struct plain_queue *q);

uint64_t plain_register(struct plain_queue *q, uint64_t number, uint64_t *token);
uint64_t plain_land(struct plain_queue *q, uint64_t number, uint64_t *token);
uint64_t plain_register_all(struct plain_queue *q, const uint64_t *numbers, size_t count, uint64_t *taken);
uint64_t plain_pop(struct plain_queue *q, struct plain_work *work);
uint64_t plain_complete(struct plain_queue *q, const struct plain_ticket *ticket, uint64_t outcome, uint64_t kept);
uint64_t plain_retry(struct plain_queue *q, struct plain_ticket *ticket);
uint64_t plain_admit(struct plain_queue *q, const uint64_t *target, size_t count, bool *yes);
uint64_t plain_admit_without(struct plain_queue *q, bool *yes);
uint64_t plain_end(struct plain_queue *q, bool *yes);
uint64_t plain_cancel(struct plain_queue *q);

uint64_t plain_is_empty(const struct plain_queue *q, bool *yes);
uint64_t plain_is_issued(const struct plain_queue *q, bool *yes);
uint64_t plain_is_pending(const struct plain_queue *q, bool *yes);
uint64_t plain_is_settled(const struct plain_queue *q, bool *yes);
uint64_t plain_is_cancelled(const struct plain_queue *q, bool *yes);
uint64_t plain_has_failed(const struct plain_queue *q, bool *yes);
uint64_t plain_can_retry(const struct plain_queue *q, bool *yes);
uint64_t plain_can_finish(const struct plain_queue *q, const uint64_t *target, size_t count, bool *yes);
uint64_t plain_domain(const struct plain_queue *q, uint64_t *domain);
/* How many tokens wait; only of a well-formed record. */
uint64_t plain_waiting(const struct plain_queue *q);

uint64_t plain_register_recorded(struct plain_queue *q, uint64_t number, struct plain_log *log, uint64_t *token);
uint64_t plain_land_recorded(struct plain_queue *q, uint64_t number, struct plain_log *log, uint64_t *token);
uint64_t plain_register_all_recorded(struct plain_queue *q, const uint64_t *numbers, size_t count,
                                     struct plain_log *log, uint64_t *taken);
uint64_t plain_pop_recorded(struct plain_queue *q, struct plain_log *log, struct plain_work *work);
uint64_t plain_complete_recorded(struct plain_queue *q, const struct plain_ticket *ticket, uint64_t outcome,
                                 uint64_t kept, struct plain_log *log);
uint64_t plain_retry_recorded(struct plain_queue *q, struct plain_log *log, struct plain_ticket *ticket);
uint64_t plain_admit_recorded(struct plain_queue *q, const uint64_t *target, size_t count, struct plain_log *log,
                              bool *yes);
uint64_t plain_admit_without_recorded(struct plain_queue *q, struct plain_log *log, bool *yes);
uint64_t plain_end_recorded(struct plain_queue *q, struct plain_log *log, bool *yes);
uint64_t plain_cancel_recorded(struct plain_queue *q, struct plain_log *log);

/* What a log is read against; bindings are looked at for an iterator alone. */
struct plain_opening {
    enum plain_kind kind;
    uint64_t domain;
    uint64_t first;
    const uint64_t *bindings;
    size_t count;
};

/* Leaves in q the state after the rows before the first bad one; place is that row's, or the rows of a good log. */
uint64_t plain_read(struct plain_queue *q, const struct plain_opening *opening, const uint64_t *words, size_t count,
                    uint64_t *place);

#endif
