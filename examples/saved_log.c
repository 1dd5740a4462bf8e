/* saved_log.c FILE: a recorded run, its log saved in FILE as text for `./gulberzan read FILE`, and read back by the library: the
   reader's end state is the queue. */
#include <inttypes.h>
#include <stdio.h>
#include <stdlib.h>
#include <string.h>

#include "gulberzan.h"

#define DOMAIN 5
#define FIRST_ATTEMPT 0
#define ROWS 64

static uint64_t queue[GULBERZAN_QUEUE_WORDS], answer[GULBERZAN_ANSWER_WORDS];
static uint64_t rows[ROWS * GULBERZAN_ROW_WORDS], used;

static void need(uint64_t result, const char *call) {
    char name[GULBERZAN_TEXT_BYTES];
    if (result == GULBERZAN_OK) return;
    gulberzan_result_text(result, name);
    fprintf(stderr, "%s: %s\n", call, name);
    exit(1);
}

static void fail(const char *what) {
    fprintf(stderr, "saved_log: %s\n", what);
    exit(1);
}

/* Two undo numbers; the newer one fails, is retried and done. */
static void run(void) {
    size_t words = sizeof rows / sizeof rows[0];
    gulberzan_open_scope(queue, DOMAIN, FIRST_ATTEMPT);
    need(gulberzan_register_recorded(queue, 71, rows, words, &used, answer), "register");
    need(gulberzan_register_recorded(queue, 72, rows, words, &used, answer), "register");
    need(gulberzan_pop_recorded(queue, rows, words, &used, answer), "pop");
    need(gulberzan_complete_recorded(queue, answer + GULBERZAN_WORK_DOMAIN, GULBERZAN_OUTCOME_FAILED, 72, rows, words, &used, answer),
         "complete");
    need(gulberzan_retry_recorded(queue, rows, words, &used, answer), "retry");
    need(gulberzan_pop_recorded(queue, rows, words, &used, answer), "pop");
    need(gulberzan_complete_recorded(queue, answer + GULBERZAN_WORK_DOMAIN, GULBERZAN_OUTCOME_DONE, 0, rows, words, &used, answer),
         "complete");
}

/* The opening, then a row a line, CRLF at the ends: the text that README.md describes. */
static void save(const char *path) {
    FILE *file = fopen(path, "wb");
    if (!file) fail("can't write the file");
    fprintf(file, "%d,%d,%d,0,0\r\n", GULBERZAN_SCOPE, DOMAIN, FIRST_ATTEMPT);
    for (uint64_t row = 0; row < used; row++) {
        const uint64_t *word = rows + row * GULBERZAN_ROW_WORDS;
        fprintf(file, "%" PRIu64 ",%" PRIu64 ",%" PRIu64 ",%" PRIu64 ",%" PRIu64 "\r\n", word[0], word[1], word[2], word[3], word[4]);
    }
    if (fclose(file)) fail("can't write the file");
}

/* The rows of the file, behind its opening. */
static size_t load(const char *path, uint64_t *words, size_t most) {
    FILE *file = fopen(path, "rb");
    size_t count = 0;
    if (!file) fail("can't read the file");
    if (fscanf(file, "%*u,%*u,%*u,%*u,%*u") == EOF) fail("the file has no opening");
    while (count + GULBERZAN_ROW_WORDS <= most) {
        uint64_t *word = words + count;
        if (fscanf(file, " %" SCNu64 ",%" SCNu64 ",%" SCNu64 ",%" SCNu64 ",%" SCNu64, word, word + 1, word + 2, word + 3, word + 4) != 5)
            break;
        count += GULBERZAN_ROW_WORDS;
    }
    fclose(file);
    return count;
}

int main(int count, char **words) {
    static uint64_t back[ROWS * GULBERZAN_ROW_WORDS], end[GULBERZAN_QUEUE_WORDS];
    if (count != 2) fail("which file?");
    run();
    save(words[1]);
    size_t length = load(words[1], back, sizeof back / sizeof back[0]);
    need(gulberzan_read(end, GULBERZAN_SCOPE, DOMAIN, FIRST_ATTEMPT, NULL, 0, back, length, answer), "read");
    printf("%" PRIu64 " rows written, saved and read back\n", answer[GULBERZAN_VALUE]);
    if (memcmp(end, queue, sizeof end)) fail("the end state is not the queue");
    puts("the end state is the queue");
    return 0;
}
