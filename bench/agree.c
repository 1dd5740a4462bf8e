/* agree.c: random calls through the library and the plain calls; every word that either leaves must be the same. */
#include <inttypes.h>
#include <stdbool.h>
#include <stdio.h>
#include <stdlib.h>
#include <string.h>

#include "../include/gulberzan.h"
#include "worded.h"

#define ROOM (GULBERZAN_LOG_WORDS + 20)
/* Words behind the lent ones that are compared too. */
#define BEHIND 10
/* The longest list, which is one to register, and the longest target. */
#define LIST_ROOM 80
#define TARGET_ROOM 20
#define CALLS_A_HISTORY 120

enum number {
    OPEN_SCOPE, OPEN_ITERATOR, REGISTER, LAND, REGISTER_ALL, POP, COMPLETE, RETRY, ADMIT, ADMIT_WITHOUT, END, CANCEL,
    IS_EMPTY, IS_ISSUED, IS_PENDING, IS_SETTLED, IS_CANCELLED, HAS_FAILED, CAN_RETRY, CAN_FINISH, DOMAIN, WELL_FORMED,
    REGISTER_RECORDED, LAND_RECORDED, REGISTER_ALL_RECORDED, POP_RECORDED, COMPLETE_RECORDED, RETRY_RECORDED,
    ADMIT_RECORDED, ADMIT_WITHOUT_RECORDED, END_RECORDED, CANCEL_RECORDED, READ, NUMBERS
};

/* All that a call may change. */
struct state {
    uint64_t queue[GULBERZAN_QUEUE_WORDS];
    uint64_t answer[GULBERZAN_ANSWER_WORDS];
    uint64_t result;
    uint64_t used;
    uint64_t log[ROOM];
};

struct call {
    enum number number;
    uint64_t kind;
    uint64_t a;
    uint64_t b;
    uint64_t ticket[GULBERZAN_TICKET_WORDS];
    uint64_t list[LIST_ROOM];
    size_t count;
    size_t words;
};

#define CALL(name) gulberzan_##name
#include "sides.h"
#undef CALL
#define CALL(name) worded_##name
#include "sides.h"
#undef CALL

static struct state library;
static struct state plain;
static uint64_t made[NUMBERS];
static uint64_t results[32];

static uint64_t seed;
/* Whether this history is to use up its tokens. */
static bool many_births;

/* splitmix64 */
static uint64_t random_word(void) {
    uint64_t z = seed += 0x9e3779b97f4a7c15u;
    z = (z ^ (z >> 30)) * 0xbf58476d1ce4e5b9u;
    z = (z ^ (z >> 27)) * 0x94d049bb133111ebu;
    return z ^ (z >> 31);
}

static uint64_t below(uint64_t bound) { return random_word() % bound; }

static bool once_in(uint64_t count) { return below(count) == 0; }

/* Small numbers, edges and any numbers. */
static uint64_t some_value(void) {
    switch (below(6)) {
    case 0:
        return UINT64_MAX - below(3);
    case 1:
        return random_word();
    case 2:
        return 62 + below(5);
    default:
        return below(4);
    }
}

static void tell_difference(const struct call *c, const char *what, uint64_t place, uint64_t one, uint64_t other) {
    printf("agree: call %d (a %" PRIu64 ", b %" PRIu64 ", list of %zu, %zu words lent): %s %" PRIu64
           ": library %" PRIu64 ", plain %" PRIu64 "\n",
           c->number, c->a, c->b, c->count, c->words, what, place, one, other);
    exit(1);
}

static void same_words(const struct call *c, const char *what, const uint64_t *one, const uint64_t *other, size_t count) {
    for (size_t i = 0; i < count; i++) {
        if (one[i] != other[i]) {
            tell_difference(c, what, i, one[i], other[i]);
        }
    }
}

/* The same call on both sides, from the same state; the answer's old words are garbage, for each must be written. */
static void hold(const struct call *c) {
    for (size_t i = 0; i < GULBERZAN_ANSWER_WORDS; i++) {
        library.answer[i] = plain.answer[i] = random_word();
    }
    gulberzan_make(&library, c);
    worded_make(&plain, c);
    same_words(c, "result", &library.result, &plain.result, 1);
    same_words(c, "queue", library.queue, plain.queue, GULBERZAN_QUEUE_WORDS);
    same_words(c, "answer", library.answer, plain.answer, GULBERZAN_ANSWER_WORDS);
    same_words(c, "used", &library.used, &plain.used, 1);
    same_words(c, "log", library.log, plain.log, c->words + BEHIND);
    made[c->number]++;
    results[library.result % 32]++;
}

/* Mostly the committed members, in any order and repeated; at times others. */
static void choose_list(struct call *c) {
    uint64_t bound = library.queue[GULBERZAN_BINDINGS_USED];
    c->count = below(TARGET_ROOM + 1);
    bool committed = !once_in(4) && bound > 0 && bound <= GULBERZAN_BINDINGS;
    if (committed && c->count < bound) {
        c->count = bound;
    }
    for (size_t i = 0; i < c->count; i++) {
        uint64_t member = i < bound ? i : below(bound + !bound);
        c->list[i] = committed ? library.queue[GULBERZAN_FIRST_BINDING + member] : below(6);
    }
    if (bound == 0 && once_in(2)) {
        c->count = 0;
    }
}

/* Mostly few numbers, so that tokens are left; at times more than there are, and a 0 at any place. */
static void choose_numbers(struct call *c) {
    c->count = below(once_in(6) ? LIST_ROOM + 1 : 6);
    for (size_t i = 0; i < c->count; i++) {
        c->list[i] = 1 + below(1000);
    }
    if (c->count > 0 && once_in(3)) {
        c->list[below(c->count)] = 0;
    }
}

static void choose_ticket(struct call *c) {
    memcpy(c->ticket, library.queue + GULBERZAN_TICKET_DOMAIN, sizeof c->ticket);
    if (once_in(6)) {
        c->ticket[below(GULBERZAN_TICKET_WORDS)] = some_value();
    }
    c->a = once_in(12) ? some_value() : below(2);
    c->b = c->a == 0 ? once_in(6) : (once_in(4) ? 0 : 1 + below(99));
}

/* Steps that fit the state more often than others, so that histories go on. */
static enum number choose_number(void) {
    bool recorded = !once_in(8);
    enum number number = (enum number)below(NUMBERS - 1);
    if (number == OPEN_SCOPE || number == OPEN_ITERATOR) {
        number = once_in(10) ? number : POP;
    }
    if (many_births && !once_in(4)) {
        number = REGISTER;
    } else if (once_in(2)) {
        number = library.queue[GULBERZAN_ISSUED] ? COMPLETE : (library.queue[GULBERZAN_FAILED] ? RETRY : POP);
    }
    if (recorded && number >= REGISTER && number < IS_EMPTY) {
        number = (enum number)(number - REGISTER + REGISTER_RECORDED);
    }
    return number;
}

static void choose(struct call *c) {
    c->number = choose_number();
    c->kind = below(2);
    c->a = some_value();
    c->b = some_value();
    if (c->number == REGISTER || c->number == REGISTER_RECORDED || c->number == LAND || c->number == LAND_RECORDED) {
        c->a = once_in(15) ? 0 : 1 + below(1000);
    }
    choose_list(c);
    if (c->number == REGISTER_ALL || c->number == REGISTER_ALL_RECORDED) {
        choose_numbers(c);
    }
    if (c->number == COMPLETE || c->number == COMPLETE_RECORDED) {
        choose_ticket(c);
    }
}

/* What stands on both sides. */
static void spoil_queue(size_t place, uint64_t value) { library.queue[place] = plain.queue[place] = value; }

/* A call on a record with one or two words spoiled, and then the record as it was. */
static void hold_spoiled(struct call *c) {
    uint64_t kept[GULBERZAN_QUEUE_WORDS];
    uint64_t used = library.used;
    memcpy(kept, library.queue, sizeof kept);
    for (uint64_t count = 1 + below(2); count > 0; count--) {
        bool marks = once_in(2);
        spoil_queue(marks ? GULBERZAN_TOKENS_ISSUED + below(8) : below(GULBERZAN_QUEUE_WORDS), some_value());
    }
    hold(c);
    memcpy(library.queue, kept, sizeof kept);
    memcpy(plain.queue, kept, sizeof kept);
    library.used = plain.used = used;
}

/* A used count that fits or does not, with a queue that stays. */
static void hold_used(struct call *c) {
    uint64_t used = library.used;
    library.used = plain.used = once_in(2) ? some_value() : c->words / GULBERZAN_ROW_WORDS + below(3) - 1;
    hold(c);
    library.used = plain.used = used;
}

/* The log of this history, as it is, cut or spoiled, read against its opening; then the queue again. */
static void hold_reading(const struct call *opening, size_t words) {
    uint64_t kept[GULBERZAN_QUEUE_WORDS];
    struct call c = *opening;
    memcpy(kept, library.queue, sizeof kept);
    c.number = READ;
    c.words = library.used * GULBERZAN_ROW_WORDS;
    size_t place = c.words == 0 ? 0 : below(c.words);
    uint64_t word = library.log[place];
    if (once_in(2)) {
        library.log[place] = plain.log[place] = once_in(2) ? word + below(3) - 1 : some_value();
    }
    if (once_in(4)) {
        c.words = below(words + 1);
    }
    c.kind = once_in(20) ? some_value() : c.kind;
    hold(&c);
    library.log[place] = plain.log[place] = word;
    memcpy(library.queue, kept, sizeof kept);
    memcpy(plain.queue, kept, sizeof kept);
}

static void open_history(struct call *opening, size_t words) {
    opening->kind = below(3) > 0;
    opening->number = opening->kind ? OPEN_ITERATOR : OPEN_SCOPE;
    opening->a = some_value();
    opening->b = once_in(3) ? UINT64_MAX - below(6) : some_value();
    opening->count = once_in(30) ? GULBERZAN_BINDINGS + 1 : below(5);
    opening->words = words;
    for (size_t i = 0; i < opening->count; i++) {
        opening->list[i] = below(6);
    }
    library.used = plain.used = 0;
    hold(opening);
}

/* Short logs fill up; some have the most rows and start nearly full. */
static void hold_history(void) {
    bool most = once_in(40);
    many_births = once_in(4);
    size_t words = most ? GULBERZAN_LOG_WORDS + below(BEHIND) : below(many_births ? 3000 : 700);
    struct call opening = {0};
    struct call c = {0};
    c.words = words;
    open_history(&opening, words);
    if (most) {
        library.used = plain.used = GULBERZAN_LOG_ROWS - below(30);
    }
    for (int i = 0; i < CALLS_A_HISTORY; i++) {
        choose(&c);
        if (once_in(8)) {
            hold_spoiled(&c);
        } else if (once_in(16)) {
            hold_used(&c);
        } else {
            hold(&c);
        }
        if (once_in(12)) {
            hold_reading(&opening, words);
        }
    }
}

/* A good log as long as there is room: a birth, and then a token that fails for ever. */
static void write_long_log(uint64_t *log) {
    for (size_t row = 0; row < ROOM / GULBERZAN_ROW_WORDS; row++) {
        uint64_t attempt = (row + 2) / 3 - 1;
        uint64_t *words = log + row * GULBERZAN_ROW_WORDS;
        memset(words, 0, GULBERZAN_ROW_WORDS * sizeof words[0]);
        words[4] = row == 0 ? 9 : 0;
        if (row > 0) {
            words[0] = GULBERZAN_ROW_POP + (row - 1) % 3;
            words[2] = words[0] == GULBERZAN_ROW_RETRY ? attempt + 1 : attempt;
            words[3] = words[0] == GULBERZAN_ROW_COMPLETE;
            words[4] = words[0] == GULBERZAN_ROW_COMPLETE ? 9 : 0;
        }
    }
}

/* Logs of the most rows, one less, one more, and part rows. */
static void hold_long_logs(void) {
    static const size_t words[] = {20475, 20476, 20480, 20481, 20485, 20490};
    static const uint64_t results_wanted[] = {0, 16, 0, 16, 16, 16};
    struct call c = {0};
    c.number = READ;
    write_long_log(library.log);
    write_long_log(plain.log);
    for (size_t i = 0; i < sizeof words / sizeof words[0]; i++) {
        c.words = words[i];
        hold(&c);
        if (library.result != results_wanted[i]) {
            tell_difference(&c, "both are wrong: long log", i, library.result, plain.result);
        }
    }
}

static void tell(void) {
    uint64_t all = 0;
    for (int i = 0; i < NUMBERS; i++) {
        all += made[i];
        if (made[i] == 0) {
            printf("agree: call %d was never made\n", i);
            exit(1);
        }
    }
    printf("agree: %" PRIu64 " calls, every word the same; results", all);
    for (int i = 0; i < 32; i++) {
        if (results[i] != 0) {
            printf(" %d:%" PRIu64, i, results[i]);
        }
    }
    printf("\n");
}

int main(int count, char **arguments) {
    if (count != 3) {
        fputs("usage: agree SEED HISTORIES\n", stderr);
        return 2;
    }
    seed = strtoul(arguments[1], NULL, 10);
    for (unsigned long left = strtoul(arguments[2], NULL, 10); left > 0; left--) {
        hold_history();
    }
    hold_long_logs();
    tell();
    return 0;
}
