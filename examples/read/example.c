/* Reads each file that is named into cards, files it and draws the catalogue: the first file is document 0. A file that is refused is told with the line
 * and column of the place. `expected` holds what it prints for the files of this folder. */
#include "gimletaspen.h"
#include <stdio.h>

static uint8_t text[GIMLETASPEN_TEXT_BYTES];
static uint32_t words[GIMLETASPEN_STORE_WORDS];
static uint32_t rows[GIMLETASPEN_ROW_WORDS];
static uint32_t errors[GIMLETASPEN_ERROR_WORDS];
static uint32_t cards[GIMLETASPEN_READ_CARD_WORDS];
/* One byte more than is accepted, so that a longer file is told as such. */
static uint8_t document[GIMLETASPEN_TEXT_BYTES + 1];

#define STORE text, GIMLETASPEN_TEXT_BYTES, words, GIMLETASPEN_STORE_WORDS

/* Lines and columns are counted from 1, columns in bytes. */
static void tell_place(const char *path, size_t place) {
    size_t line = 1, column = 1;
    for (size_t i = 0; i < place; i++)
        if (document[i] == '\n') {
            line++;
            column = 1;
        } else
            column++;
    printf("%s:%zu:%zu: ", path, line, column);
}

static int told(const char *path, struct gimletaspen_answer answer) {
    if (answer.number == GIMLETASPEN_ACCEPTED)
        return 1;
    if (answer.number == GIMLETASPEN_NOT_IN_GRAMMAR || answer.number == GIMLETASPEN_NESTED_TOO_DEEP)
        tell_place(path, answer.card);
    else
        printf("%s: ", path);
    printf("refused %u\n", answer.number);
    return 0;
}

static int file(const char *path, int first) {
    FILE *opened = fopen(path, "rb");
    if (!opened) {
        perror(path);
        return 0;
    }
    size_t length = fread(document, 1, sizeof document, opened);
    fclose(opened);
    struct gimletaspen_answer read = gimletaspen_parse(document, length, cards, GIMLETASPEN_READ_CARD_WORDS);
    if (!told(path, read))
        return 0;
    size_t used = GIMLETASPEN_CARD_WORDS * read.card;
    printf("%s: %zu cards\n", path, read.card);
    return told(path, first ? gimletaspen_open(STORE, document, length, cards, used) : gimletaspen_add_ast(STORE, document, length, cards, used));
}

static void print_rows(const uint32_t *from, size_t count) {
    for (size_t i = 0; i < GIMLETASPEN_WORDS_PER_ROW * count; i++) {
        if (from[i] == GIMLETASPEN_NONE)
            printf("-");
        else
            printf("%u", from[i]);
        putchar((i + 1) % GIMLETASPEN_WORDS_PER_ROW ? ' ' : '\n');
    }
}

int main(int count, char **paths) {
    int filed = 0;
    for (int i = 1; i < count; i++)
        filed += file(paths[i], filed == 0);
    struct gimletaspen_drawing drawing = gimletaspen_build(STORE, rows, GIMLETASPEN_ROW_WORDS, errors, GIMLETASPEN_ERROR_WORDS);
    if (drawing.number != GIMLETASPEN_ACCEPTED) {
        printf("build: refused %u\n", drawing.number);
        return 1;
    }
    printf("rows %u\n", drawing.rows);
    print_rows(rows, drawing.rows);
    printf("errors %u %u\n", drawing.reading_errors, drawing.drawing_errors);
    print_rows(errors, drawing.reading_errors + drawing.drawing_errors);
    return 0;
}
