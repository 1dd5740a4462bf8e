/* edges.c: what the header says beside the calls: lists and logs of no words may be null, a list to register may be longer than a queue
   has tokens, results have names, a switch over a call's cases compiles, and the macros are what they were. And that the archive's
   functions lie where docs/DECISIONS.md, 55, puts them. */
#include <ctype.h>
#include <stdio.h>
#include <stdlib.h>
#include <string.h>

#include "gulberzan.h"

#if GULBERZAN_VERSION_MAJOR != 2 || GULBERZAN_VERSION_MINOR < 1
#error "another version than this test is for"
#endif

#define EXPECT(fact) expect(fact, #fact, __LINE__)

static void expect(int holds, const char *fact, int line) {
    if (!holds) {
        fprintf(stderr, "edges: line %d: not so: %s\n", line, fact);
        exit(1);
    }
}

static uint64_t queue[GULBERZAN_QUEUE_WORDS], answer[GULBERZAN_ANSWER_WORDS];

/* A null list of no words is an empty list, and a null log of no words has no room. */
static void try_null(void) {
    uint64_t used = 0;
    EXPECT(gulberzan_open_iterator(queue, 5, 0, NULL, 0) == GULBERZAN_OK);
    EXPECT(queue[GULBERZAN_KIND] == GULBERZAN_ITERATOR && queue[GULBERZAN_BINDINGS_USED] == 0);
    EXPECT(gulberzan_can_finish(queue, NULL, 0, answer) == GULBERZAN_OK && answer[GULBERZAN_CASE] == GULBERZAN_TOLD_YES);
    EXPECT(gulberzan_admit_recorded(queue, NULL, 0, NULL, 0, &used, answer) == GULBERZAN_LOG_FULL);
    EXPECT(queue[GULBERZAN_PHASE] == GULBERZAN_IDLE && used == 0);
    EXPECT(gulberzan_admit(queue, NULL, 0, answer) == GULBERZAN_OK && answer[GULBERZAN_CASE] == GULBERZAN_TOLD_YES);
    EXPECT(queue[GULBERZAN_PHASE] == GULBERZAN_PENDING);
    EXPECT(gulberzan_admit_recorded(queue, NULL, 0, NULL, 0, &used, answer) == GULBERZAN_OK);
    EXPECT(gulberzan_admit_without_recorded(queue, NULL, 0, &used, answer) == GULBERZAN_OK);
    EXPECT(gulberzan_register_recorded(queue, 71, NULL, 0, &used, answer) == GULBERZAN_LOG_FULL && answer[1] == 71);
    EXPECT(gulberzan_land_recorded(queue, 71, NULL, 0, &used, answer) == GULBERZAN_LOG_FULL && answer[1] == 71);
    EXPECT(gulberzan_pop_recorded(queue, NULL, 0, &used, answer) == GULBERZAN_OK);
    EXPECT(answer[GULBERZAN_CASE] == GULBERZAN_POP_NOTHING);
    EXPECT(gulberzan_register(queue, 71, answer) == GULBERZAN_OK);
    EXPECT(gulberzan_pop_recorded(queue, NULL, 0, &used, answer) == GULBERZAN_LOG_FULL);
    EXPECT(gulberzan_pop(queue, answer) == GULBERZAN_OK && answer[GULBERZAN_CASE] == GULBERZAN_POP_WORK);
    EXPECT(gulberzan_complete_recorded(queue, answer + GULBERZAN_WORK_DOMAIN, GULBERZAN_OUTCOME_FAILED, 71, NULL, 0, &used, answer) ==
           GULBERZAN_LOG_FULL);
    EXPECT(gulberzan_complete(queue, queue + GULBERZAN_TICKET_DOMAIN, GULBERZAN_OUTCOME_FAILED, 71, answer) == GULBERZAN_OK);
    EXPECT(gulberzan_retry_recorded(queue, NULL, 0, &used, answer) == GULBERZAN_LOG_FULL);
    EXPECT(gulberzan_end_recorded(queue, NULL, 0, &used, answer) == GULBERZAN_LOG_FULL);
    EXPECT(gulberzan_cancel_recorded(queue, NULL, 0, &used, answer) == GULBERZAN_LOG_FULL);
    used = 1;
    EXPECT(gulberzan_cancel_recorded(queue, NULL, 0, &used, answer) == GULBERZAN_BROKEN);
    EXPECT(gulberzan_read(queue, GULBERZAN_ITERATOR, 5, 0, NULL, 0, NULL, 0, answer) == GULBERZAN_OK);
    EXPECT(answer[GULBERZAN_CASE] == GULBERZAN_READ_ROWS && answer[GULBERZAN_VALUE] == 0);
}

/* A null list of no numbers takes none: no room is needed for it, but what is lent is still looked at. */
static void try_null_sequences(void) {
    const uint64_t number = 71;
    uint64_t used = 0;
    EXPECT(gulberzan_open_scope(queue, 5, 0) == GULBERZAN_OK);
    EXPECT(gulberzan_register_all(queue, NULL, 0, answer) == GULBERZAN_OK);
    EXPECT(answer[GULBERZAN_CASE] == GULBERZAN_CASE_DONE && answer[GULBERZAN_VALUE] == 0);
    EXPECT(gulberzan_register_all_recorded(queue, NULL, 0, NULL, 0, &used, answer) == GULBERZAN_OK);
    EXPECT(answer[GULBERZAN_CASE] == GULBERZAN_CASE_DONE && answer[GULBERZAN_VALUE] == 0);
    EXPECT(gulberzan_register_all_recorded(queue, &number, 1, NULL, 0, &used, answer) == GULBERZAN_LOG_FULL);
    EXPECT(answer[GULBERZAN_CASE] == GULBERZAN_CASE_REFUSED && answer[GULBERZAN_VALUE] == 0);
    EXPECT(queue[GULBERZAN_TOKENS_ISSUED] == 0 && used == 0);
    used = 1;
    EXPECT(gulberzan_register_all_recorded(queue, NULL, 0, NULL, 0, &used, answer) == GULBERZAN_BROKEN && used == 1);
    queue[GULBERZAN_FAILED] = 1;
    EXPECT(gulberzan_register_all(queue, NULL, 0, answer) == GULBERZAN_BROKEN);
    EXPECT(answer[GULBERZAN_CASE] == GULBERZAN_CASE_REFUSED && answer[GULBERZAN_VALUE] == 0);
}

#define MANY 1000

/* 1, 2 and so on, but for a 0 at one place. */
static void count_up(uint64_t numbers[MANY], size_t zero) {
    for (size_t place = 0; place < MANY; place++) numbers[place] = place == zero ? 0 : place + 1;
}

/* The first slots have 1, 2 and so on, and the others nothing. */
static void expect_slots(uint64_t taken) {
    EXPECT(queue[GULBERZAN_TOKENS_ISSUED] == taken);
    for (uint64_t token = 0; token < GULBERZAN_SLOTS; token++)
        EXPECT(queue[GULBERZAN_FIRST_SLOT + token] == (token < taken ? token + 1 : 0));
}

/* A list of this length with a 0 at this place, on a new scope; every word of queue and answer but the opening's is looked at. */
static void expect_sequence(size_t count, size_t zero, uint64_t result, uint64_t taken) {
    uint64_t numbers[MANY], kept[MANY];
    const uint64_t want[GULBERZAN_ANSWER_WORDS] = {result == GULBERZAN_OK ? GULBERZAN_CASE_DONE : GULBERZAN_CASE_REFUSED, taken, 0, 0, 0};
    count_up(numbers, zero);
    count_up(kept, zero);
    memset(answer, 0xee, sizeof answer);
    EXPECT(gulberzan_open_scope(queue, 5, 0) == GULBERZAN_OK);
    EXPECT(gulberzan_register_all(queue, numbers, count, answer) == result);
    EXPECT(!memcmp(answer, want, sizeof want));
    EXPECT(!memcmp(numbers, kept, sizeof kept));
    EXPECT(gulberzan_well_formed(queue) == 1);
    expect_slots(taken);
}

/* Up to the last token and past it, and a 0 before, at and behind the place where the tokens end. */
static void try_sequences(void) {
    expect_sequence(63, MANY, GULBERZAN_OK, 63);
    expect_sequence(64, MANY, GULBERZAN_OK, 64);
    expect_sequence(65, MANY, GULBERZAN_NO_SLOT, 64);
    expect_sequence(MANY, MANY, GULBERZAN_NO_SLOT, 64);
    expect_sequence(MANY, 0, GULBERZAN_BAD_NUMBER, 0);
    expect_sequence(MANY, 63, GULBERZAN_BAD_NUMBER, 63);
    expect_sequence(65, 64, GULBERZAN_BAD_NUMBER, 64);
    expect_sequence(MANY, 64, GULBERZAN_BAD_NUMBER, 64);
    expect_sequence(MANY, 65, GULBERZAN_NO_SLOT, 64);
}

#define ROOM 70

static uint64_t rows[ROOM * GULBERZAN_ROW_WORDS];

/* A register row for each number that was taken, behind one used row, and all other words as they were. */
static void expect_rows(uint64_t taken) {
    for (uint64_t row = 0; row < ROOM; row++) {
        const uint64_t *word = rows + row * GULBERZAN_ROW_WORDS;
        const uint64_t want[GULBERZAN_ROW_WORDS] = {GULBERZAN_ROW_REGISTER, row - 1, 0, 0, row};
        const uint64_t marked[GULBERZAN_ROW_WORDS] = {900, 900, 900, 900, 900};
        EXPECT(!memcmp(word, row > 0 && row <= taken ? want : marked, sizeof want));
    }
}

/* The list of all numbers, recorded behind one used row with so many words lent. */
static void expect_recorded(size_t words, uint64_t result, uint64_t taken) {
    uint64_t numbers[MANY], kept[MANY], used = 1;
    const uint64_t want[GULBERZAN_ANSWER_WORDS] = {GULBERZAN_CASE_REFUSED, taken, 0, 0, 0};
    count_up(numbers, MANY);
    count_up(kept, MANY);
    for (size_t place = 0; place < ROOM * GULBERZAN_ROW_WORDS; place++) rows[place] = 900;
    memset(answer, 0xee, sizeof answer);
    EXPECT(gulberzan_open_scope(queue, 5, 0) == GULBERZAN_OK);
    EXPECT(gulberzan_register_all_recorded(queue, numbers, MANY, rows, words, &used, answer) == result);
    EXPECT(!memcmp(answer, want, sizeof want));
    EXPECT(used == 1 + taken);
    expect_rows(taken);
    expect_slots(taken);
    EXPECT(!memcmp(numbers, kept, sizeof kept));
}

/* Room for none, for some but not for a whole row more, for one less than there are tokens, and for all. */
static void try_recorded_sequences(void) {
    expect_recorded(4, GULBERZAN_BROKEN, 0);
    expect_recorded(9, GULBERZAN_LOG_FULL, 0);
    expect_recorded(104, GULBERZAN_LOG_FULL, 19);
    expect_recorded(105, GULBERZAN_LOG_FULL, 20);
    expect_recorded(64 * GULBERZAN_ROW_WORDS, GULBERZAN_LOG_FULL, 63);
    expect_recorded(65 * GULBERZAN_ROW_WORDS, GULBERZAN_NO_SLOT, 64);
    expect_recorded(ROOM * GULBERZAN_ROW_WORDS, GULBERZAN_NO_SLOT, 64);
}

/* Words that encode no record stay, whatever the list. */
static void try_refused_words(void) {
    const uint64_t numbers[] = {71, 0}, want[GULBERZAN_ANSWER_WORDS] = {GULBERZAN_CASE_REFUSED, 0, 0, 0, 0};
    uint64_t kept[GULBERZAN_QUEUE_WORDS], used = 0;
    for (size_t count = 0; count <= 2; count++) {
        EXPECT(gulberzan_open_scope(queue, 5, 0) == GULBERZAN_OK);
        queue[GULBERZAN_PHASE] = 5;
        memcpy(kept, queue, sizeof kept);
        memset(answer, 0xee, sizeof answer);
        EXPECT(gulberzan_register_all(queue, numbers, count, answer) == GULBERZAN_BROKEN && !memcmp(answer, want, sizeof want));
        memset(answer, 0xee, sizeof answer);
        EXPECT(gulberzan_register_all_recorded(queue, numbers, count, rows, ROOM * GULBERZAN_ROW_WORDS, &used, answer) == GULBERZAN_BROKEN);
        EXPECT(!memcmp(answer, want, sizeof want) && !memcmp(queue, kept, sizeof kept) && used == 0);
    }
}

/* The header's name of a result, in small letters. */
static void expect_name(uint64_t number, const char *name) {
    char text[GULBERZAN_TEXT_BYTES], want[GULBERZAN_TEXT_BYTES] = {0};
    memset(text, 'x', sizeof text);
    for (size_t place = 0; name[place]; place++) want[place] = (char)tolower((unsigned char)name[place]);
    EXPECT(gulberzan_result_text(number, text) == strlen(name));
    EXPECT(!memcmp(text, want, sizeof text));
}

#define NAMED(name) expect_name(GULBERZAN_##name, #name)

static void try_names(void) {
    NAMED(OK);
    NAMED(BROKEN);
    NAMED(BAD_NUMBER);
    NAMED(NO_SLOT);
    NAMED(NOT_PENDING);
    NAMED(NO_ATTEMPT);
    NAMED(NOT_OUT);
    NAMED(KEPT_ON_DONE);
    NAMED(NO_RETRY);
    NAMED(HOLLOW);
    NAMED(TOO_MANY_BINDINGS);
    NAMED(BAD_OUTCOME);
    NAMED(BAD_LOG);
    NAMED(LOG_FULL);
    expect_name(10, "no_group");
    expect_name(11, "groups_full");
    expect_name(12, "sealed");
    expect_name(13, "not_drained");
    expect_name(18, "bad_text");
    expect_name(19, "no_id");
    NAMED(NOTHING_KEPT);
    NAMED(NO_FURTHER_ATTEMPT);
    expect_name(22, "unknown");
    expect_name(UINT64_MAX, "unknown");
}

/* Each call's cases in a switch of their own: that this compiles is the test. */
static int switches(uint64_t said) {
    int met = 0;
    switch (said) { case GULBERZAN_BIRTH_REFUSED: case GULBERZAN_BIRTH_TOKEN: met++; }
    switch (said) { case GULBERZAN_REGISTER_ALL_REFUSED: case GULBERZAN_REGISTER_ALL_DONE: met++; }
    switch (said) { case GULBERZAN_POP_REFUSED: case GULBERZAN_POP_NOTHING: case GULBERZAN_POP_WORK: met++; }
    switch (said) { case GULBERZAN_COMPLETE_REFUSED: case GULBERZAN_COMPLETE_SETTLED: met++; }
    switch (said) { case GULBERZAN_RETRY_REFUSED: case GULBERZAN_RETRY_RENEWED: met++; }
    switch (said) { case GULBERZAN_TOLD_REFUSED: case GULBERZAN_TOLD_NO: case GULBERZAN_TOLD_YES: met++; }
    switch (said) { case GULBERZAN_CANCEL_REFUSED: case GULBERZAN_CANCEL_DONE: met++; }
    switch (said) { case GULBERZAN_DOMAIN_REFUSED: case GULBERZAN_DOMAIN_TOLD: met++; }
    switch (said) { case GULBERZAN_READ_REFUSED: case GULBERZAN_READ_ROWS: met++; }
    return met;
}

/* Wherever the linker puts the archive, a call begins at a multiple of 64 bytes. */
static void try_places(void) {
    const uintptr_t places[] = {
        (uintptr_t)gulberzan_register,          (uintptr_t)gulberzan_pop,          (uintptr_t)gulberzan_complete,
        (uintptr_t)gulberzan_retry,             (uintptr_t)gulberzan_admit,        (uintptr_t)gulberzan_read,
        (uintptr_t)gulberzan_register_recorded, (uintptr_t)gulberzan_pop_recorded, (uintptr_t)gulberzan_complete_recorded,
        (uintptr_t)gulberzan_register_all,      (uintptr_t)gulberzan_register_all_recorded,
    };
    for (size_t place = 0; place < sizeof places / sizeof places[0]; place++) EXPECT(places[place] % 64 == 0);
}

int main(void) {
    try_null();
    try_null_sequences();
    try_sequences();
    try_recorded_sequences();
    try_refused_words();
    try_names();
    try_places();
    EXPECT(switches(0) == 9 && switches(1) == 9 && switches(2) == 2);
    puts("null lists of no words, lists of up to 1,000 numbers, the results' names, a switch for each call, where functions lie");
    return 0;
}
