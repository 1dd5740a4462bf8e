/* worded.h: the plain calls with the library's words for queue and answer, to hold one against the other. */
#ifndef WORDED_H
#define WORDED_H

#include <stddef.h>
#include <stdint.h>

/* Each is gulberzan.h's call of the same name. */
uint64_t worded_open_scope(uint64_t *queue, uint64_t domain, uint64_t first_attempt);
uint64_t worded_open_iterator(uint64_t *queue, uint64_t domain, uint64_t first_attempt, const uint64_t *bindings,
                              size_t count);
uint64_t worded_well_formed(const uint64_t *queue);
uint64_t worded_register(uint64_t *queue, uint64_t number, uint64_t *answer);
uint64_t worded_land(uint64_t *queue, uint64_t number, uint64_t *answer);
uint64_t worded_register_all(uint64_t *queue, const uint64_t *numbers, size_t count, uint64_t *answer);
uint64_t worded_pop(uint64_t *queue, uint64_t *answer);
uint64_t worded_complete(uint64_t *queue, const uint64_t *ticket, uint64_t outcome, uint64_t kept, uint64_t *answer);
uint64_t worded_retry(uint64_t *queue, uint64_t *answer);
uint64_t worded_admit(uint64_t *queue, const uint64_t *target, size_t count, uint64_t *answer);
uint64_t worded_admit_without(uint64_t *queue, uint64_t *answer);
uint64_t worded_end(uint64_t *queue, uint64_t *answer);
uint64_t worded_cancel(uint64_t *queue, uint64_t *answer);
uint64_t worded_is_empty(const uint64_t *queue, uint64_t *answer);
uint64_t worded_is_issued(const uint64_t *queue, uint64_t *answer);
uint64_t worded_is_pending(const uint64_t *queue, uint64_t *answer);
uint64_t worded_is_settled(const uint64_t *queue, uint64_t *answer);
uint64_t worded_is_cancelled(const uint64_t *queue, uint64_t *answer);
uint64_t worded_has_failed(const uint64_t *queue, uint64_t *answer);
uint64_t worded_can_retry(const uint64_t *queue, uint64_t *answer);
uint64_t worded_can_finish(const uint64_t *queue, const uint64_t *target, size_t count, uint64_t *answer);
uint64_t worded_domain(const uint64_t *queue, uint64_t *answer);
uint64_t worded_register_recorded(uint64_t *queue, uint64_t number, uint64_t *log, size_t words, uint64_t *used,
                                  uint64_t *answer);
uint64_t worded_land_recorded(uint64_t *queue, uint64_t number, uint64_t *log, size_t words, uint64_t *used,
                              uint64_t *answer);
uint64_t worded_register_all_recorded(uint64_t *queue, const uint64_t *numbers, size_t count, uint64_t *log,
                                      size_t words, uint64_t *used, uint64_t *answer);
uint64_t worded_pop_recorded(uint64_t *queue, uint64_t *log, size_t words, uint64_t *used, uint64_t *answer);
uint64_t worded_complete_recorded(uint64_t *queue, const uint64_t *ticket, uint64_t outcome, uint64_t kept,
                                  uint64_t *log, size_t words, uint64_t *used, uint64_t *answer);
uint64_t worded_retry_recorded(uint64_t *queue, uint64_t *log, size_t words, uint64_t *used, uint64_t *answer);
uint64_t worded_admit_recorded(uint64_t *queue, const uint64_t *target, size_t count, uint64_t *log, size_t words,
                               uint64_t *used, uint64_t *answer);
uint64_t worded_admit_without_recorded(uint64_t *queue, uint64_t *log, size_t words, uint64_t *used,
                                       uint64_t *answer);
uint64_t worded_end_recorded(uint64_t *queue, uint64_t *log, size_t words, uint64_t *used, uint64_t *answer);
uint64_t worded_cancel_recorded(uint64_t *queue, uint64_t *log, size_t words, uint64_t *used, uint64_t *answer);
uint64_t worded_read(uint64_t *queue, uint64_t kind, uint64_t domain, uint64_t first_attempt, const uint64_t *bindings,
                     size_t count, const uint64_t *log, size_t words, uint64_t *answer);

#endif
