/* gulberzan.h: the proved cleanup queue for C and C++. docs/LIBRARY.md has the layout and the answers in tables, and what the calls do.

   What a caller keeps to; what is proved is proved of calls that do:

   Memory. All of it is the caller's, 64-bit words aligned as a uint64_t: GULBERZAN_QUEUE_WORDS for a queue, and so on; the bytes of a
   result's name need no alignment. The library allocates nothing, keeps no pointer between calls, and has no memory of its own.

   Null. A pointer is not null. Only that of a list or a log of no words (count or words is 0) may be: nothing is read or written there.

   Overlap. In every call, questions too, no two of queue, answer, log and *used share a word. A ticket, bindings, a target or the
   numbers of register_all may lie anywhere, inside these too: all of it is read before the first word is written, which is seen in the
   code and tried, since the proofs give each list memory of its own. So the ticket may be
   `answer + GULBERZAN_WORK_DOMAIN` as pop left it, or `queue + GULBERZAN_TICKET_DOMAIN`, and the bindings
   `queue + GULBERZAN_FIRST_BINDING`. The log that gulberzan_read reads lies apart from what it writes.

   Threads. One thread at a time on one queue, its log, its used count and its answer. Calls on other memory may run at the same time, and
   so may questions to one queue, each with an answer of its own, as long as no other call writes that queue. */
#ifndef GULBERZAN_H
#define GULBERZAN_H

#include <stddef.h>
#include <stdint.h>

#ifdef __cplusplus
extern "C" {
#endif

/* The first rises if a program has to be changed, the second if there is something more. */
#define GULBERZAN_VERSION_MAJOR 2
#define GULBERZAN_VERSION_MINOR 1

/* What a compiler may know: which pointers are never null (by their places, from 1), that a call does not throw, and,
   of a call that can be refused, that its result is to be looked at. */
#if defined(__GNUC__) || defined(__clang__)
#define GULBERZAN_CALL(...) __attribute__((nothrow, nonnull(__VA_ARGS__)))
#define GULBERZAN_LOOK __attribute__((warn_unused_result))
#else
#define GULBERZAN_CALL(...)
#define GULBERZAN_LOOK
#endif

/* Sizes, in words of 64 bits unless said. */
#define GULBERZAN_QUEUE_WORDS 92
#define GULBERZAN_ANSWER_WORDS 5
#define GULBERZAN_TICKET_WORDS 3
#define GULBERZAN_ROW_WORDS 5
#define GULBERZAN_SLOTS 64
#define GULBERZAN_BINDINGS 16
#define GULBERZAN_LOG_ROWS 4096
/* What a log of the most rows takes. */
#define GULBERZAN_LOG_WORDS (GULBERZAN_LOG_ROWS * GULBERZAN_ROW_WORDS)
/* Bytes of a result's name, with the 0 behind it. */
#define GULBERZAN_TEXT_BYTES 24

/* Places of a queue's words. */
enum gulberzan_word {
    GULBERZAN_KIND = 0,
    GULBERZAN_DOMAIN = 1,
    GULBERZAN_NEXT_ATTEMPT = 2,
    GULBERZAN_FIRST_SLOT = 3,
    GULBERZAN_TOKENS_ISSUED = 67,
    GULBERZAN_SELECTED = 68,
    GULBERZAN_TICKET_DOMAIN = 69,
    GULBERZAN_TICKET_TOKEN = 70,
    GULBERZAN_TICKET_ATTEMPT = 71,
    GULBERZAN_FAILED = 72,
    GULBERZAN_ISSUED = 73,
    GULBERZAN_PHASE = 74,
    GULBERZAN_FIRST_BINDING = 75,
    GULBERZAN_BINDINGS_USED = 91
};

/* Values of the words kind and phase, and of the reader's kind. */
enum gulberzan_kind { GULBERZAN_SCOPE = 0, GULBERZAN_ITERATOR = 1 };
enum gulberzan_phase {
    GULBERZAN_IDLE = 0,
    GULBERZAN_PENDING = 1,
    GULBERZAN_ENDED = 2,
    GULBERZAN_STOPPING = 3,
    GULBERZAN_CLOSED = 4
};

/* Outcomes for complete. */
enum gulberzan_outcome { GULBERZAN_OUTCOME_DONE = 0, GULBERZAN_OUTCOME_FAILED = 1 };

/* Results: 0 is done, another number is the refusal. The numbers between are those of groups and texts, which have no calls here. */
enum gulberzan_result {
    GULBERZAN_OK = 0,
    GULBERZAN_BROKEN = 1,             /* no well-formed record, or the used rows don't fit the log */
    GULBERZAN_BAD_NUMBER = 2,         /* the undo number is 0 */
    GULBERZAN_NO_SLOT = 3,            /* 64 tokens are used up */
    GULBERZAN_NOT_PENDING = 4,        /* land in a phase other than Pending and Stopping */
    GULBERZAN_NO_ATTEMPT = 5,         /* pop: attempt numbers are used up */
    GULBERZAN_NOT_OUT = 6,            /* nothing is out, or not this ticket */
    GULBERZAN_KEPT_ON_DONE = 7,       /* Done with a kept number other than 0 */
    GULBERZAN_NO_RETRY = 8,           /* nothing has failed */
    GULBERZAN_HOLLOW = 9,             /* never given */
    GULBERZAN_TOO_MANY_BINDINGS = 14, /* more than 16 */
    GULBERZAN_BAD_OUTCOME = 15,       /* neither 0 nor 1 */
    GULBERZAN_BAD_LOG = 16,           /* the reader: a row that can't be */
    GULBERZAN_LOG_FULL = 17,          /* no room for the row */
    GULBERZAN_NOTHING_KEPT = 20,      /* what failed kept 0, so it can't be retried */
    GULBERZAN_NO_FURTHER_ATTEMPT = 21 /* what failed can't be retried: attempt numbers are used up */
};

/* The first word of an answer; what the other four are stands at each call. */
enum gulberzan_case {
    GULBERZAN_CASE_REFUSED = 0,
    GULBERZAN_CASE_DONE = 1,
    GULBERZAN_CASE_NOTHING = 1,
    GULBERZAN_CASE_WORK = 2,
    GULBERZAN_CASE_NO = 1,
    GULBERZAN_CASE_YES = 2
};

/* The same by call, so that a switch over one call's cases names each once. */
enum gulberzan_birth_case { /* register, land */
    GULBERZAN_BIRTH_REFUSED = GULBERZAN_CASE_REFUSED,
    GULBERZAN_BIRTH_TOKEN = GULBERZAN_CASE_DONE
};
enum gulberzan_register_all_case { /* how many were taken is the value of both */
    GULBERZAN_REGISTER_ALL_REFUSED = GULBERZAN_CASE_REFUSED,
    GULBERZAN_REGISTER_ALL_DONE = GULBERZAN_CASE_DONE
};
enum gulberzan_pop_case {
    GULBERZAN_POP_REFUSED = GULBERZAN_CASE_REFUSED,
    GULBERZAN_POP_NOTHING = GULBERZAN_CASE_NOTHING,
    GULBERZAN_POP_WORK = GULBERZAN_CASE_WORK
};
enum gulberzan_complete_case {
    GULBERZAN_COMPLETE_REFUSED = GULBERZAN_CASE_REFUSED,
    GULBERZAN_COMPLETE_SETTLED = GULBERZAN_CASE_DONE
};
enum gulberzan_retry_case {
    GULBERZAN_RETRY_REFUSED = GULBERZAN_CASE_REFUSED,
    GULBERZAN_RETRY_RENEWED = GULBERZAN_CASE_DONE
};
enum gulberzan_told_case { /* admit, end and every question */
    GULBERZAN_TOLD_REFUSED = GULBERZAN_CASE_REFUSED,
    GULBERZAN_TOLD_NO = GULBERZAN_CASE_NO,
    GULBERZAN_TOLD_YES = GULBERZAN_CASE_YES
};
enum gulberzan_cancel_case {
    GULBERZAN_CANCEL_REFUSED = GULBERZAN_CASE_REFUSED,
    GULBERZAN_CANCEL_DONE = GULBERZAN_CASE_DONE
};
enum gulberzan_domain_case {
    GULBERZAN_DOMAIN_REFUSED = GULBERZAN_CASE_REFUSED,
    GULBERZAN_DOMAIN_TOLD = GULBERZAN_CASE_DONE
};
enum gulberzan_read_case {
    GULBERZAN_READ_REFUSED = GULBERZAN_CASE_REFUSED,
    GULBERZAN_READ_ROWS = GULBERZAN_CASE_DONE
};

/* Places of an answer's words, and what the values are where pop hands out work and retry a ticket. */
enum gulberzan_answer {
    GULBERZAN_CASE = 0,
    GULBERZAN_VALUE = 1,
    GULBERZAN_WORK_DOMAIN = 1,
    GULBERZAN_WORK_TOKEN = 2,
    GULBERZAN_WORK_ATTEMPT = 3,
    GULBERZAN_WORK_NUMBER = 4
};

/* Kinds of log rows; a row is kind, token, attempt, outcome, number, and 0 where its kind has no such column. */
enum gulberzan_row {
    GULBERZAN_ROW_REGISTER = 0, /* token, number */
    GULBERZAN_ROW_LAND = 1,     /* token, number */
    GULBERZAN_ROW_POP = 2,      /* token, attempt */
    GULBERZAN_ROW_COMPLETE = 3, /* token, attempt, outcome, kept number */
    GULBERZAN_ROW_RETRY = 4,    /* token, new attempt */
    GULBERZAN_ROW_ADMIT = 5,
    GULBERZAN_ROW_END = 6,
    GULBERZAN_ROW_CANCEL = 7
};

/* Every call that takes an answer writes all of it: case 0 with a refusal, and 0 where a case has fewer values. All of them but
   the reader refuse words that are no well-formed record with 1, first. A refusal leaves queue, log and *used as
   they were, but for an opening (14), the reader, and register_all: what it took before the refused number stays. A count of 0 is an
   empty list: as a target it has no members, which is not the same as no target. */

/* Opens a scope in queue, whatever stood there; its result is always 0. */
GULBERZAN_CALL(1)
uint64_t gulberzan_open_scope(uint64_t queue[GULBERZAN_QUEUE_WORDS], uint64_t domain, uint64_t first_attempt);

/* Opens an iterator with count bindings; more than 16 get 14 and leave what gulberzan_open_scope(queue, 0, 0) leaves, the blank queue. */
GULBERZAN_CALL(1) GULBERZAN_LOOK
uint64_t gulberzan_open_iterator(uint64_t queue[GULBERZAN_QUEUE_WORDS], uint64_t domain, uint64_t first_attempt,
                                 const uint64_t *bindings, size_t count);

/* 1 if the words encode a well-formed record, else 0. */
GULBERZAN_CALL(1) GULBERZAN_LOOK
uint64_t gulberzan_well_formed(const uint64_t queue[GULBERZAN_QUEUE_WORDS]);

/* Appends an undo number; case 1: token. Refused 1, 2, 3: the number comes back. */
GULBERZAN_CALL(1, 3) GULBERZAN_LOOK
uint64_t gulberzan_register(uint64_t queue[GULBERZAN_QUEUE_WORDS], uint64_t number,
                            uint64_t answer[GULBERZAN_ANSWER_WORDS]);

/* Appends an undo number and moves the stage, Pending to Idle or Stopping to Closed; case 1: token. Refused 1, 2, 4, 3: the number
   comes back. */
GULBERZAN_CALL(1, 3) GULBERZAN_LOOK
uint64_t gulberzan_land(uint64_t queue[GULBERZAN_QUEUE_WORDS], uint64_t number,
                        uint64_t answer[GULBERZAN_ANSWER_WORDS]);

/* Registers the numbers of a list, however long, one after the other, as so many calls of gulberzan_register, up to the first that is
   refused; case 1: how many there are. Refused 1, which is checked of an empty list too: 0; 2, 3: how many were taken, which is the
   refused one's place in the list, from 0. Their tokens count up from the word GULBERZAN_TOKENS_ISSUED as it was before. The list stays,
   unless it lies inside what is written: then it is written over. */
GULBERZAN_CALL(1, 4) GULBERZAN_LOOK
uint64_t gulberzan_register_all(uint64_t queue[GULBERZAN_QUEUE_WORDS], const uint64_t *numbers, size_t count,
                                uint64_t answer[GULBERZAN_ANSWER_WORDS]);

/* Hands out the ready ticket, which retry renewed, or else a fresh one for the newest waiting undo number; case 1: Nothing;
   case 2: domain, token, attempt, undo number. Refused 1, 5; 9 is never given. */
GULBERZAN_CALL(1, 2) GULBERZAN_LOOK
uint64_t gulberzan_pop(uint64_t queue[GULBERZAN_QUEUE_WORDS], uint64_t answer[GULBERZAN_ANSWER_WORDS]);

/* Settles what is out; ticket is domain, token, attempt; kept is 0 with Done, and with Failed the number to retry, or 0, after
   which the queue hands out nothing any more; case 1. Refused 1, 15, 6, 7: the kept number comes back. */
GULBERZAN_CALL(1, 2, 5) GULBERZAN_LOOK
uint64_t gulberzan_complete(uint64_t queue[GULBERZAN_QUEUE_WORDS], const uint64_t ticket[GULBERZAN_TICKET_WORDS],
                            uint64_t outcome, uint64_t kept, uint64_t answer[GULBERZAN_ANSWER_WORDS]);

/* Renews a failed ticket; case 1: domain, token, new attempt. Refused 1, 8, 20, 21. */
GULBERZAN_CALL(1, 2) GULBERZAN_LOOK
uint64_t gulberzan_retry(uint64_t queue[GULBERZAN_QUEUE_WORDS], uint64_t answer[GULBERZAN_ANSWER_WORDS]);

/* Moves an Idle stage to Pending if target and bindings have the same members; yes if it is pending afterwards. Refused 1. */
GULBERZAN_CALL(1, 4) GULBERZAN_LOOK
uint64_t gulberzan_admit(uint64_t queue[GULBERZAN_QUEUE_WORDS], const uint64_t *target, size_t count,
                         uint64_t answer[GULBERZAN_ANSWER_WORDS]);

/* Admit with no target, which moves nothing; yes if the stage is pending. Refused 1. */
GULBERZAN_CALL(1, 2) GULBERZAN_LOOK
uint64_t gulberzan_admit_without(uint64_t queue[GULBERZAN_QUEUE_WORDS], uint64_t answer[GULBERZAN_ANSWER_WORDS]);

/* Ends a pending stage, Pending to Ended or Stopping to Closed; yes if it was pending before. Refused 1. */
GULBERZAN_CALL(1, 2) GULBERZAN_LOOK
uint64_t gulberzan_end(uint64_t queue[GULBERZAN_QUEUE_WORDS], uint64_t answer[GULBERZAN_ANSWER_WORDS]);

/* Cancels the stage, Idle or Ended to Closed, Pending to Stopping; case 1. Refused 1. */
GULBERZAN_CALL(1, 2) GULBERZAN_LOOK
uint64_t gulberzan_cancel(uint64_t queue[GULBERZAN_QUEUE_WORDS], uint64_t answer[GULBERZAN_ANSWER_WORDS]);

/* The questions change nothing; case 1: no; case 2: yes. Refused 1. */

/* Yes if nothing waits and nothing is selected. */
GULBERZAN_CALL(1, 2) GULBERZAN_LOOK
uint64_t gulberzan_is_empty(const uint64_t queue[GULBERZAN_QUEUE_WORDS], uint64_t answer[GULBERZAN_ANSWER_WORDS]);

/* Yes if a ticket is out. */
GULBERZAN_CALL(1, 2) GULBERZAN_LOOK
uint64_t gulberzan_is_issued(const uint64_t queue[GULBERZAN_QUEUE_WORDS], uint64_t answer[GULBERZAN_ANSWER_WORDS]);

/* Yes in the phases Pending and Stopping. */
GULBERZAN_CALL(1, 2) GULBERZAN_LOOK
uint64_t gulberzan_is_pending(const uint64_t queue[GULBERZAN_QUEUE_WORDS], uint64_t answer[GULBERZAN_ANSWER_WORDS]);

/* Yes in the phases Ended and Closed. */
GULBERZAN_CALL(1, 2) GULBERZAN_LOOK
uint64_t gulberzan_is_settled(const uint64_t queue[GULBERZAN_QUEUE_WORDS], uint64_t answer[GULBERZAN_ANSWER_WORDS]);

/* Yes in the phases Stopping and Closed. */
GULBERZAN_CALL(1, 2) GULBERZAN_LOOK
uint64_t gulberzan_is_cancelled(const uint64_t queue[GULBERZAN_QUEUE_WORDS], uint64_t answer[GULBERZAN_ANSWER_WORDS]);

/* Yes if the selected ticket failed. */
GULBERZAN_CALL(1, 2) GULBERZAN_LOOK
uint64_t gulberzan_has_failed(const uint64_t queue[GULBERZAN_QUEUE_WORDS], uint64_t answer[GULBERZAN_ANSWER_WORDS]);

/* Yes if retry would not be refused. */
GULBERZAN_CALL(1, 2) GULBERZAN_LOOK
uint64_t gulberzan_can_retry(const uint64_t queue[GULBERZAN_QUEUE_WORDS], uint64_t answer[GULBERZAN_ANSWER_WORDS]);

/* Yes if no ticket is selected, the stage is not pending and not cancelled, and the target's members are the bindings'. */
GULBERZAN_CALL(1, 4) GULBERZAN_LOOK
uint64_t gulberzan_can_finish(const uint64_t queue[GULBERZAN_QUEUE_WORDS], const uint64_t *target, size_t count,
                              uint64_t answer[GULBERZAN_ANSWER_WORDS]);

/* Case 1: the queue's domain. Refused 1. */
GULBERZAN_CALL(1, 2) GULBERZAN_LOOK
uint64_t gulberzan_domain(const uint64_t queue[GULBERZAN_QUEUE_WORDS], uint64_t answer[GULBERZAN_ANSWER_WORDS]);

/* The recorded calls answer as those above. One that changes the queue writes a row behind the *used rows of log, which is
   `words` words long, and raises *used by 1, register_all for each number that it takes; without room it is refused with 17, last. Used
   rows that don't fit get 1, first. */

/* Register, recorded. */
GULBERZAN_CALL(1, 5, 6) GULBERZAN_LOOK
uint64_t gulberzan_register_recorded(uint64_t queue[GULBERZAN_QUEUE_WORDS], uint64_t number, uint64_t *log,
                                     size_t words, uint64_t *used, uint64_t answer[GULBERZAN_ANSWER_WORDS]);

/* Land, recorded. */
GULBERZAN_CALL(1, 5, 6) GULBERZAN_LOOK
uint64_t gulberzan_land_recorded(uint64_t queue[GULBERZAN_QUEUE_WORDS], uint64_t number, uint64_t *log, size_t words,
                                 uint64_t *used, uint64_t answer[GULBERZAN_ANSWER_WORDS]);

/* Register_all, recorded; without room for the next number's row 17, unless 2 or 3 refuses that number. An empty list never gets 17. */
GULBERZAN_CALL(1, 6, 7) GULBERZAN_LOOK
uint64_t gulberzan_register_all_recorded(uint64_t queue[GULBERZAN_QUEUE_WORDS], const uint64_t *numbers, size_t count,
                                         uint64_t *log, size_t words, uint64_t *used,
                                         uint64_t answer[GULBERZAN_ANSWER_WORDS]);

/* Pop, recorded; Nothing writes no row. */
GULBERZAN_CALL(1, 4, 5) GULBERZAN_LOOK
uint64_t gulberzan_pop_recorded(uint64_t queue[GULBERZAN_QUEUE_WORDS], uint64_t *log, size_t words, uint64_t *used,
                                uint64_t answer[GULBERZAN_ANSWER_WORDS]);

/* Complete, recorded. */
GULBERZAN_CALL(1, 2, 7, 8) GULBERZAN_LOOK
uint64_t gulberzan_complete_recorded(uint64_t queue[GULBERZAN_QUEUE_WORDS],
                                     const uint64_t ticket[GULBERZAN_TICKET_WORDS], uint64_t outcome, uint64_t kept,
                                     uint64_t *log, size_t words, uint64_t *used,
                                     uint64_t answer[GULBERZAN_ANSWER_WORDS]);

/* Retry, recorded. */
GULBERZAN_CALL(1, 4, 5) GULBERZAN_LOOK
uint64_t gulberzan_retry_recorded(uint64_t queue[GULBERZAN_QUEUE_WORDS], uint64_t *log, size_t words, uint64_t *used,
                                  uint64_t answer[GULBERZAN_ANSWER_WORDS]);

/* Admit with a target, recorded; no move writes no row. */
GULBERZAN_CALL(1, 6, 7) GULBERZAN_LOOK
uint64_t gulberzan_admit_recorded(uint64_t queue[GULBERZAN_QUEUE_WORDS], const uint64_t *target, size_t count,
                                  uint64_t *log, size_t words, uint64_t *used,
                                  uint64_t answer[GULBERZAN_ANSWER_WORDS]);

/* Admit with no target, recorded; it never writes a row. */
GULBERZAN_CALL(1, 4, 5) GULBERZAN_LOOK
uint64_t gulberzan_admit_without_recorded(uint64_t queue[GULBERZAN_QUEUE_WORDS], uint64_t *log, size_t words,
                                          uint64_t *used, uint64_t answer[GULBERZAN_ANSWER_WORDS]);

/* End, recorded; no move writes no row. */
GULBERZAN_CALL(1, 4, 5) GULBERZAN_LOOK
uint64_t gulberzan_end_recorded(uint64_t queue[GULBERZAN_QUEUE_WORDS], uint64_t *log, size_t words, uint64_t *used,
                                uint64_t answer[GULBERZAN_ANSWER_WORDS]);

/* Cancel, recorded; no move writes no row. */
GULBERZAN_CALL(1, 4, 5) GULBERZAN_LOOK
uint64_t gulberzan_cancel_recorded(uint64_t queue[GULBERZAN_QUEUE_WORDS], uint64_t *log, size_t words,
                                   uint64_t *used, uint64_t answer[GULBERZAN_ANSWER_WORDS]);

/* Reads a log against an opening; case 1: rows, and queue is the end state. Refused 16: the bad row's place, and queue is the
   state before it; 14: 0, and queue is blank; 1 for a kind above 1: queue stays. A scope's bindings are not looked at. */
GULBERZAN_CALL(1, 9) GULBERZAN_LOOK
uint64_t gulberzan_read(uint64_t queue[GULBERZAN_QUEUE_WORDS], uint64_t kind, uint64_t domain, uint64_t first_attempt,
                        const uint64_t *bindings, size_t count, const uint64_t *log, size_t words,
                        uint64_t answer[GULBERZAN_ANSWER_WORDS]);

/* The name of a result, for a log file: `ok`, or the refusal's name above in small letters, as `bad_number`, or `unknown`. Writes all
   of text, with 0 behind the name, and returns how many bytes the name has. The groups' numbers have names too. */
GULBERZAN_CALL(2)
uint64_t gulberzan_result_text(uint64_t number, char text[GULBERZAN_TEXT_BYTES]);

#ifdef __cplusplus
}
#endif

#endif
