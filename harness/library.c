/* The library itself, for harness/run/compare.py: run in a case folder, `library list` prints its listing and `library ask` the answers to its questions,
 * in the oracle's form (README.md). All of it goes through the entries for C. Sizes and refusals are the header's; how many words a card has is nothing
 * to this program. */
#include "gimletaspen.h"
#include <stdio.h>
#include <stdlib.h>
#include <string.h>

#define FILE_BYTES (1 << 20)

/* What the header says in words: three words stand before a group's cards. */
#define GROUP_CARDS 3
#define WORDS_OF_ROW GIMLETASPEN_WORDS_PER_ROW

static uint8_t text[GIMLETASPEN_TEXT_BYTES];
static uint32_t words[GIMLETASPEN_STORE_WORDS];
static uint32_t rows[GIMLETASPEN_ROW_WORDS];
static uint32_t errors[GIMLETASPEN_ERROR_WORDS];
static uint32_t list[GIMLETASPEN_GROUP_WORDS];
static struct gimletaspen_drawing drawing;

static uint8_t document[FILE_BYTES];
static uint32_t cards[FILE_BYTES / sizeof(uint32_t)];
static char lines[FILE_BYTES];

/* Before which document each switch is turned on; 0 is never. */
static int adopt_turn, ignore_turn;

#define STORE text, sizeof text, words, GIMLETASPEN_STORE_WORDS
#define DRAWN STORE, rows, WORDS_OF_ROW * (size_t)drawing.rows

static void fail(const char *what) {
    fprintf(stderr, "library: %s\n", what);
    exit(1);
}

/* A refusal is the whole answer. */
static void stop_if_refused(uint32_t number, size_t card) {
    if (number == GIMLETASPEN_ACCEPTED)
        return;
    printf("refused %u %zu\n", number, card);
    exit(0);
}

/* The bytes of a file, or -1 if there is none. */
static long read_file(const char *name, void *into, size_t room) {
    FILE *file = fopen(name, "rb");
    if (!file)
        return -1;
    size_t size = fread(into, 1, room, file);
    if (fgetc(file) != EOF)
        fail("a file is too long");
    fclose(file);
    return (long)size;
}

static void read_turns(void) {
    char digits[8] = "00";
    read_file("switches", digits, sizeof digits - 1);
    adopt_turn = digits[0] == '1';
    ignore_turn = digits[1] == '1';
    long size = read_file("turns", lines, sizeof lines - 1);
    lines[size < 0 ? 0 : size] = 0;
    char *rest = lines, *line;
    while ((line = strsep(&rest, "\n"))) {
        sscanf(line, "adopt %d", &adopt_turn);
        sscanf(line, "ignore %d", &ignore_turn);
    }
}

static void turn_on(int held) {
    struct gimletaspen_answer answer;
    if (held == adopt_turn && held > 0) {
        answer = gimletaspen_adopt_orphan_extensions(STORE);
        stop_if_refused(answer.number, answer.card);
    }
    if (held == ignore_turn && held > 0) {
        answer = gimletaspen_ignore_builtin_redefinitions(STORE);
        stop_if_refused(answer.number, answer.card);
    }
}

static void file_documents(void) {
    for (int held = 0;; held++) {
        turn_on(held);
        char name[32];
        snprintf(name, sizeof name, "d%d.txt", held);
        long size = read_file(name, document, sizeof document);
        snprintf(name, sizeof name, "d%d.crd", held);
        long card_bytes = read_file(name, cards, sizeof cards);
        if (size < 0 || card_bytes < 0)
            return;
        size_t card_words = (size_t)card_bytes / sizeof *cards;
        if ((size_t)card_bytes % sizeof *cards)
            stop_if_refused(GIMLETASPEN_CARDS_BROKEN, 0);
        struct gimletaspen_answer answer = held == 0
            ? gimletaspen_open(STORE, document, (size_t)size, cards, card_words)
            : gimletaspen_add_ast(STORE, document, (size_t)size, cards, card_words);
        stop_if_refused(answer.number, answer.card);
    }
}

static void draw(void) {
    drawing = gimletaspen_build(STORE, rows, GIMLETASPEN_ROW_WORDS, errors, GIMLETASPEN_ERROR_WORDS);
    stop_if_refused(drawing.number, 0);
}

static void print_word(const char *before, uint32_t word) {
    if (word == GIMLETASPEN_NONE)
        printf("%s-", before);
    else
        printf("%s%u", before, word);
}

static void print_rows(const uint32_t *from, size_t count) {
    for (size_t i = 0; i < WORDS_OF_ROW * count; i++) {
        print_word(i % WORDS_OF_ROW ? " " : "", from[i]);
        if ((i + 1) % WORDS_OF_ROW == 0)
            putchar('\n');
    }
}

static void print_listing(void) {
    printf("rows %u\n", drawing.rows);
    print_rows(rows, drawing.rows);
    printf("errors %u %u\n", drawing.reading_errors, drawing.drawing_errors);
    print_rows(errors, (size_t)drawing.reading_errors + drawing.drawing_errors);
}

static void answer_field(const char *owner, const char *field) {
    struct gimletaspen_field_lookup found =
        gimletaspen_type_field(DRAWN, (const uint8_t *)owner, strlen(owner), (const uint8_t *)field, strlen(field));
    stop_if_refused(found.refusal, 0);
    if (found.number == GIMLETASPEN_FIELD_NO_SUCH_TYPE)
        puts("no type");
    else if (found.number == GIMLETASPEN_FIELD_NO_SUCH_FIELD)
        printf("no field %u\n", found.card);
    else if (found.meta == GIMLETASPEN_META_EXPLICIT)
        printf("found %u\n", found.card);
    else
        printf("meta %u\n", found.meta);
}

static void answer_subtype(const char *general, const char *other) {
    struct gimletaspen_subtype_lookup told =
        gimletaspen_is_subtype(DRAWN, (const uint8_t *)general, strlen(general), (const uint8_t *)other, strlen(other));
    stop_if_refused(told.refusal, 0);
    puts(told.yes ? "yes" : "no");
}

static void answer_root(const char *kind) {
    static uint8_t name[GIMLETASPEN_TEXT_BYTES];
    size_t size = gimletaspen_root_operation(DRAWN, (uint32_t)atoi(kind), name, sizeof name);
    printf("%.*s\n", size ? (int)size : 1, size ? (const char *)name : "-");
}

static void print_list(struct gimletaspen_answer answer) {
    stop_if_refused(answer.number, 0);
    printf("%zu", answer.card);
    for (size_t i = 0; i < answer.card; i++)
        print_word(" ", list[i]);
    putchar('\n');
}

/* The name of a stored card is a span of the store's text. */
static void print_name(uint32_t card) {
    const uint32_t *stored = words + GIMLETASPEN_CARDS_AT + GIMLETASPEN_CARD_WORDS * (size_t)card;
    fwrite(text + stored[GIMLETASPEN_WORD_NAME_OFFSET], 1, stored[GIMLETASPEN_WORD_NAME_LENGTH], stdout);
}

/* In the order in which the library writes the groups. */
static void answer_implementers(void) {
    struct gimletaspen_answer answer = gimletaspen_implementers_map(DRAWN, list, GIMLETASPEN_GROUP_WORDS);
    stop_if_refused(answer.number, 0);
    printf("%zu", answer.card);
    const uint32_t *group = list;
    for (size_t i = 0; i < answer.card; i++) {
        size_t size = GROUP_CARDS + (size_t)group[1] + group[2];
        printf(" : ");
        print_name(group[0]);
        for (size_t j = 0; j < size; j++)
            print_word(" ", group[j]);
        group += size;
    }
    putchar('\n');
}

static void answer_line(char *line) {
    const char *kind = strsep(&line, " "), *first = strsep(&line, " "), *second = strsep(&line, " ");
    if (strcmp(kind, "field") == 0 && second)
        answer_field(first, second);
    else if (strcmp(kind, "subtype") == 0 && second)
        answer_subtype(first, second);
    else if (strcmp(kind, "root") == 0 && first)
        answer_root(first);
    else if (strcmp(kind, "origins") == 0)
        print_list(gimletaspen_iter_origins(DRAWN, list, GIMLETASPEN_GROUP_WORDS));
    else if (strcmp(kind, "extensions") == 0)
        print_list(gimletaspen_extensions(DRAWN, list, GIMLETASPEN_GROUP_WORDS));
    else if (strcmp(kind, "implementers") == 0)
        answer_implementers();
    else
        fail("no such question");
}

static void answer_questions(void) {
    long size = read_file("questions", lines, sizeof lines - 1);
    if (size < 0)
        fail("there are no questions");
    lines[size] = 0;
    char *rest = lines;
    while (*rest)
        answer_line(strsep(&rest, "\n"));
}

int main(int count, char **arguments) {
    if (count != 2 || (strcmp(arguments[1], "list") && strcmp(arguments[1], "ask")))
        fail("usage: library list | library ask");
    read_turns();
    file_documents();
    draw();
    if (arguments[1][0] == 'l')
        print_listing();
    else
        answer_questions();
    return 0;
}
