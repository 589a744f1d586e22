/* How long drawing and lookups take: bench FOLDER TIMES. Prints nanoseconds a call, as the oracle's bench does: the middle one of batches of about 50
 * microseconds. With TIMES 0 it draws once, for counting instructions. The folder's documents are filed before anything is measured. */
#include "gimletaspen.h"
#include <stdio.h>
#include <stdlib.h>
#include <string.h>
#include <time.h>

#define FILE_BYTES (1 << 20)
#define BATCH 50000.0
#define MOST_BATCHES 100000
#define MOST_QUESTIONS 65536
/* A row is three words, as the header says. */
#define WORDS_OF_ROW 3

static uint8_t text[GIMLETASPEN_TEXT_BYTES];
static uint32_t words[GIMLETASPEN_STORE_WORDS];
static uint32_t rows[GIMLETASPEN_ROW_WORDS];
static uint32_t errors[GIMLETASPEN_ERROR_WORDS];
static uint32_t list[GIMLETASPEN_GROUP_WORDS];
static size_t rows_length;

static uint8_t document[FILE_BYTES];
static uint32_t cards[FILE_BYTES / sizeof(uint32_t)];
static char questions[FILE_BYTES];

#define STORE text, sizeof text, words, GIMLETASPEN_STORE_WORDS

static void fail(const char *what) {
    fprintf(stderr, "bench: %s\n", what);
    exit(1);
}

/* The bytes of a file of the folder, or -1 if there is none. */
static long read_file(const char *folder, const char *name, void *into) {
    char path[4096];
    snprintf(path, sizeof path, "%s/%s", folder, name);
    FILE *file = fopen(path, "rb");
    if (!file)
        return -1;
    size_t size = fread(into, 1, FILE_BYTES, file);
    fclose(file);
    return (long)size;
}

static void file_documents(const char *folder) {
    for (int number = 0;; number++) {
        char name[32];
        snprintf(name, sizeof name, "d%d.txt", number);
        long size = read_file(folder, name, document);
        snprintf(name, sizeof name, "d%d.crd", number);
        long card_bytes = read_file(folder, name, cards);
        if (size < 0 || card_bytes < 0)
            return;
        size_t card_words = (size_t)card_bytes / sizeof *cards;
        struct gimletaspen_answer answer = number == 0
            ? gimletaspen_open(STORE, document, (size_t)size, cards, card_words)
            : gimletaspen_add_ast(STORE, document, (size_t)size, cards, card_words);
        if (answer.number)
            fail("a document was refused");
    }
}

/* Never inlined, so that a profiler shows what one drawing costs. */
__attribute__((noinline)) static void draw(void) {
    struct gimletaspen_drawing drawing = gimletaspen_build(STORE, rows, GIMLETASPEN_ROW_WORDS, errors, GIMLETASPEN_ERROR_WORDS);
    if (drawing.number)
        fail("the drawing was refused");
    rows_length = WORDS_OF_ROW * (size_t)drawing.rows;
}

/* One question, as the harness's folders have them; the line's kind was matched before. */
static void ask(char *const *line) {
    const uint8_t *a = (const uint8_t *)line[1], *b = (const uint8_t *)line[2];
    size_t a_length = a ? strlen(line[1]) : 0, b_length = b ? strlen(line[2]) : 0;
    uint8_t name[256];
    switch (line[0][0]) {
    case 'f':
        gimletaspen_type_field(STORE, rows, rows_length, a, a_length, b, b_length);
        break;
    case 's':
        gimletaspen_is_subtype(STORE, rows, rows_length, a, a_length, b, b_length);
        break;
    case 'r':
        gimletaspen_root_operation(STORE, rows, rows_length, (uint32_t)atoi(line[1]), name, sizeof name);
        break;
    case 'o':
        gimletaspen_iter_origins(STORE, rows, rows_length, list, GIMLETASPEN_GROUP_WORDS);
        break;
    case 'e':
        gimletaspen_extensions(STORE, rows, rows_length, list, GIMLETASPEN_GROUP_WORDS);
        break;
    default:
        gimletaspen_implementers_map(STORE, rows, rows_length, list, GIMLETASPEN_GROUP_WORDS);
    }
}

static char *asked[MOST_QUESTIONS][3];
static size_t asked_count;

static void ask_all(void) {
    for (size_t i = 0; i < asked_count; i++)
        ask(asked[i]);
}

static double now(void) {
    struct timespec time;
    clock_gettime(CLOCK_MONOTONIC, &time);
    return (double)time.tv_sec * 1e9 + (double)time.tv_nsec;
}

static int compare(const void *a, const void *b) {
    double x = *(const double *)a, y = *(const double *)b;
    return (x > y) - (x < y);
}

/* Nanoseconds for one of `what`, the middle of all batches. */
static double measure(void (*what)(void), long times) {
    static double batches[MOST_BATCHES];
    what();
    what();
    double start = now();
    what();
    double once = now() - start;
    long batch = once * 1000 < BATCH ? 1000 : once > BATCH ? 1 : (long)(BATCH / once);
    long count = (times + batch - 1) / batch;
    if (count > MOST_BATCHES)
        count = MOST_BATCHES;
    for (long i = 0; i < count; i++) {
        start = now();
        for (long j = 0; j < batch; j++)
            what();
        batches[i] = (now() - start) / (double)batch;
    }
    qsort(batches, (size_t)count, sizeof(double), compare);
    return batches[count / 2];
}

/* Keeps the questions of one kind, split into words. */
static void choose(const char *kind, const char *all) {
    static char split[FILE_BYTES];
    strcpy(split, all);
    asked_count = 0;
    char *rest = split, *line;
    while ((line = strsep(&rest, "\n"))) {
        char *fields[3] = {strsep(&line, " "), NULL, NULL};
        fields[1] = strsep(&line, " ");
        fields[2] = strsep(&line, " ");
        if (strcmp(fields[0], kind) == 0 && asked_count < MOST_QUESTIONS)
            memcpy(asked[asked_count++], fields, sizeof fields);
    }
}

int main(int count, char **arguments) {
    if (count != 3)
        fail("usage: bench FOLDER TIMES");
    long times = atol(arguments[2]);
    file_documents(arguments[1]);
    draw();
    if (times == 0)
        return 0;
    printf("build %.1f\n", measure(draw, times));
    long size = read_file(arguments[1], "questions", questions);
    if (size < 0)
        return 0;
    questions[size < FILE_BYTES ? size : FILE_BYTES - 1] = 0;
    static const char *const kinds[] = {"field", "subtype", "root", "origins", "extensions", "implementers"};
    for (size_t i = 0; i < sizeof kinds / sizeof *kinds; i++) {
        choose(kinds[i], questions);
        if (asked_count)
            printf("%s %.1f\n", kinds[i], measure(ask_all, times) / (double)asked_count);
    }
    return 0;
}
