/* sequence.c: a recipe brings its undo numbers as one list, and one of them is 0 by mistake. What stands before it is taken, and the call
   tells how many that are, so the rest can be handed in again once it is mended. Then all are played back, the newest first. */
#include <inttypes.h>
#include <stdio.h>
#include <stdlib.h>

#include "gulberzan.h"

#define COUNT(list) (sizeof(list) / sizeof(list)[0])
#define ROWS 16

static uint64_t queue[GULBERZAN_QUEUE_WORDS], answer[GULBERZAN_ANSWER_WORDS];
static uint64_t rows[ROWS * GULBERZAN_ROW_WORDS], used;

static void need(uint64_t result, const char *call) {
    char name[GULBERZAN_TEXT_BYTES];
    if (result == GULBERZAN_OK) return;
    gulberzan_result_text(result, name);
    fprintf(stderr, "%s: %s\n", call, name);
    exit(1);
}

/* The list is handed in twice: up to the number that is refused, and from there on. */
static void register_recipe(uint64_t *recipe, size_t count) {
    char name[GULBERZAN_TEXT_BYTES];
    uint64_t result = gulberzan_register_all_recorded(queue, recipe, count, rows, COUNT(rows), &used, answer);
    uint64_t taken = answer[GULBERZAN_VALUE];
    gulberzan_result_text(result, name);
    printf("%s: %" PRIu64 " of %zu are taken, %" PRIu64 " rows written\n", name, taken, count, used);
    if (result == GULBERZAN_BAD_NUMBER) recipe[taken] = 73;
    need(gulberzan_register_all_recorded(queue, recipe + taken, count - taken, rows, COUNT(rows), &used, answer), "register_all");
    printf("then the other %" PRIu64 ", %" PRIu64 " rows written\n", answer[GULBERZAN_VALUE], used);
}

static void play_back(void) {
    for (;;) {
        need(gulberzan_pop_recorded(queue, rows, COUNT(rows), &used, answer), "pop");
        if (answer[GULBERZAN_CASE] == GULBERZAN_POP_NOTHING) return;
        printf("undo %" PRIu64 "\n", answer[GULBERZAN_WORK_NUMBER]);
        need(gulberzan_complete_recorded(queue, answer + GULBERZAN_WORK_DOMAIN, GULBERZAN_OUTCOME_DONE, 0, rows, COUNT(rows), &used,
                                         answer),
             "complete");
    }
}

int main(void) {
    uint64_t recipe[] = {71, 72, 0, 74};
    gulberzan_open_scope(queue, 5, 0);
    register_recipe(recipe, COUNT(recipe));
    play_back();
    printf("%" PRIu64 " rows in all\n", used);
    return 0;
}
