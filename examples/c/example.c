/* Opens a store, files three documents, draws the catalogue, prints it with names and makes each lookup. `expected` holds what it prints.
 * docs/FORMAT.md says what cards, rows and errors are; `tools/cards --show FILE.txt` prints the cards of a text. */
#include "gimletaspen.h"
#include <stdio.h>
#include <string.h>

static uint8_t text[GIMLETASPEN_TEXT_BYTES];
static uint32_t words[GIMLETASPEN_STORE_WORDS];
static uint32_t rows[GIMLETASPEN_ROW_WORDS];
static uint32_t errors[GIMLETASPEN_ERROR_WORDS];
static uint32_t list[GIMLETASPEN_GROUP_WORDS];
static uint8_t name[GIMLETASPEN_TEXT_BYTES];
static size_t rows_length;

#define STORE text, GIMLETASPEN_TEXT_BYTES, words, GIMLETASPEN_STORE_WORDS
#define DRAWN STORE, rows, rows_length
#define BYTES(string) (const uint8_t *)(string), strlen(string)
#define CARDS(cards) (cards), sizeof(cards) / sizeof(uint32_t)

/* The words of a card: kind, item offset, item length, name offset, name length. A line has a heading and the parts that follow it. */

static const char built_in[] = "scalar Int scalar String";
static const uint32_t built_in_cards[] = {
    5, 0, 10, 7, 3,
    5, 11, 13, 18, 6,
};

static const char model[] = "type Query{device:Device} interface Device{name:String} type Embosser implements Device{name:String}";
static const uint32_t model_cards[] = {
    6, 0, 25, 5, 5,     22, 11, 13, 11, 6,
    7, 26, 29, 36, 6,   22, 43, 11, 43, 4,
    6, 56, 44, 61, 8,   21, 81, 6, 81, 6,   22, 88, 11, 88, 4,
};

static const char update[] = "extend type Embosser@new{name:String dots:Int} union Machine=Embosser";
static const uint32_t update_cards[] = {
    13, 0, 46, 12, 8,   20, 20, 4, 21, 3,   22, 25, 11, 25, 4,  22, 37, 8, 37, 4,
    8, 47, 22, 53, 7,   23, 61, 8, 61, 8,
};

static const char centre[] = "type Change{stop:Int} extend schema{mutation:Change} extend type Student{room:Int} scalar Int";
static const uint32_t centre_cards[] = {
    6, 0, 21, 5, 6,     22, 12, 8, 12, 4,
    11, 22, 30, 0, 0,   27, 36, 15, 45, 6,
    13, 53, 29, 65, 7,  22, 73, 8, 73, 4,
    5, 83, 10, 90, 3,
};

/* The kinds that rows have. */
static const char *const kinds[] = {
    [GIMLETASPEN_KIND_DIRECTIVE_DEFINITION] = "directive", [GIMLETASPEN_KIND_SCHEMA_DEFINITION] = "schema",
    [GIMLETASPEN_KIND_SCALAR_TYPE_DEFINITION] = "scalar", [GIMLETASPEN_KIND_OBJECT_TYPE_DEFINITION] = "type",
    [GIMLETASPEN_KIND_INTERFACE_TYPE_DEFINITION] = "interface", [GIMLETASPEN_KIND_UNION_TYPE_DEFINITION] = "union",
    [GIMLETASPEN_KIND_ENUM_TYPE_DEFINITION] = "enum", [GIMLETASPEN_KIND_INPUT_OBJECT_TYPE_DEFINITION] = "input",
    [GIMLETASPEN_KIND_DIRECTIVE] = "directive use", [GIMLETASPEN_KIND_IMPLEMENTS_INTERFACE] = "implements",
    [GIMLETASPEN_KIND_FIELD_DEFINITION] = "field", [GIMLETASPEN_KIND_UNION_MEMBER] = "member",
    [GIMLETASPEN_KIND_ENUM_VALUE_DEFINITION] = "value", [GIMLETASPEN_KIND_INPUT_VALUE_DEFINITION] = "input field",
    [GIMLETASPEN_KIND_QUERY] = "query", [GIMLETASPEN_KIND_MUTATION] = "mutation", [GIMLETASPEN_KIND_SUBSCRIPTION] = "subscription",
};

static const char *const error_texts[GIMLETASPEN_ERROR_NUMBERS] = {
    "an operation or fragment among type definitions", "a second schema definition", "a second definition of the directive",
    "a second definition of the type", "a scalar that is built-in already", "a schema extension without schema",
    "an extension of a type that is not defined", "an extension of another kind than its type", "a second root for one operation",
    "an object lists an interface twice", "an interface lists an interface twice", "an object has a second field",
    "an interface has a second field", "an enum has a second value", "a union has a second member", "an input object has a second field",
};

static int tell(const char *call, struct gimletaspen_answer answer) {
    if (answer.number == GIMLETASPEN_ACCEPTED)
        printf("%s: accepted\n", call);
    else
        printf("%s: refused %u, card %zu\n", call, answer.number, answer.card);
    return answer.number == GIMLETASPEN_ACCEPTED;
}

static void print_words(const uint32_t *from, size_t count) {
    for (size_t i = 0; i < count; i++)
        if (from[i] == GIMLETASPEN_NONE)
            printf("%3s", "-");
        else
            printf("%3u", from[i]);
}

/* The name of a stored card is a span of the store's text. */
static void print_name(uint32_t number) {
    const uint32_t *stored = words + GIMLETASPEN_CARDS_AT + GIMLETASPEN_CARD_WORDS * (size_t)number;
    printf(" %.*s", (int)stored[GIMLETASPEN_WORD_NAME_LENGTH], (const char *)text + stored[GIMLETASPEN_WORD_NAME_OFFSET]);
}

/* No name is longer than a store's text, so it fits. */
static void print_root(uint32_t kind) {
    size_t length = gimletaspen_root_operation(DRAWN, kind, name, GIMLETASPEN_TEXT_BYTES);
    printf(" %.*s", length ? (int)length : 1, length ? (const char *)name : "-");
}

/* A default root has no card of its own, so its name is asked for; the schema has no name. */
static void print_row(const uint32_t *row) {
    print_words(row, GIMLETASPEN_WORDS_PER_ROW);
    printf("%s%s", row[0] < GIMLETASPEN_KIND_DIRECTIVE ? "  " : "      ", kinds[row[0]]);
    if (row[1] != GIMLETASPEN_NONE)
        print_name(row[1]);
    else if (row[0] != GIMLETASPEN_KIND_SCHEMA_DEFINITION)
        print_root(row[0]);
    puts("");
}

static void print_error(const uint32_t *error) {
    print_words(error, GIMLETASPEN_WORDS_PER_ROW);
    printf("  %s:", error_texts[error[0] - 1]);
    print_name(error[1]);
    puts("");
}

static int draw(void) {
    struct gimletaspen_drawing drawing = gimletaspen_build(STORE, rows, GIMLETASPEN_ROW_WORDS, errors, GIMLETASPEN_ERROR_WORDS);
    if (drawing.number != GIMLETASPEN_ACCEPTED)
        return 0;
    printf("%u rows\n", drawing.rows);
    rows_length = GIMLETASPEN_WORDS_PER_ROW * (size_t)drawing.rows;
    for (size_t i = 0; i < rows_length; i += GIMLETASPEN_WORDS_PER_ROW)
        print_row(rows + i);
    printf("errors while reading: %u, while drawing: %u\n", drawing.reading_errors, drawing.drawing_errors);
    for (size_t i = 0; i < drawing.tallies.total; i++)
        print_error(errors + GIMLETASPEN_WORDS_PER_ROW * i);
    return 1;
}

static void look_up(const char *type_name, const char *field) {
    struct gimletaspen_field_lookup found = gimletaspen_type_field(DRAWN, BYTES(type_name), BYTES(field));
    printf("%s.%s: ", type_name, field);
    if (found.number == GIMLETASPEN_FIELD_REFUSED)
        printf("refused %u\n", found.refusal);
    else if (found.number == GIMLETASPEN_FIELD_NO_SUCH_TYPE)
        puts("no such type");
    else if (found.number == GIMLETASPEN_FIELD_NO_SUCH_FIELD)
        printf("no such field of the type at card %u\n", found.card);
    else if (found.meta == GIMLETASPEN_META_EXPLICIT)
        printf("card %u\n", found.card);
    else
        printf("meta field %u\n", found.meta);
}

static void compare(const char *general, const char *other) {
    struct gimletaspen_subtype_lookup told = gimletaspen_is_subtype(DRAWN, BYTES(general), BYTES(other));
    printf("%s is a subtype of %s: %s\n", other, general, told.refusal ? "refused" : told.yes ? "yes" : "no");
}

static void print_list(const char *call, struct gimletaspen_answer answer) {
    printf("%s:", call);
    print_words(list, answer.card);
    puts("");
}

/* A group: the naming card, how many objects and interfaces, and the cards of these types. */
static void print_groups(struct gimletaspen_answer answer) {
    const uint32_t *at = list;
    for (size_t i = 0; i < answer.card; i++) {
        printf("implementers of");
        print_name(at[0]);
        printf(" (objects: %u, interfaces: %u):", at[1], at[2]);
        const uint32_t *end = at + 3 + at[1] + at[2];
        for (at += 3; at < end; at++)
            print_name(*at);
        puts("");
    }
}

int main(void) {
    if (!tell("open", gimletaspen_open(STORE, BYTES(built_in), CARDS(built_in_cards)))
        || !tell("ignore_builtin_redefinitions", gimletaspen_ignore_builtin_redefinitions(STORE))
        || !tell("add_ast", gimletaspen_add_ast(STORE, BYTES(model), CARDS(model_cards)))
        || !tell("add_ast", gimletaspen_add_ast(STORE, BYTES(update), CARDS(update_cards)))
        || !tell("add_ast", gimletaspen_add_ast(STORE, BYTES(centre), CARDS(centre_cards))))
        return 1;
    /* A text that ends before its second card's item does is refused, and nothing changes. */
    tell("add_ast", gimletaspen_add_ast(STORE, BYTES("scalar Int scalar"), CARDS(built_in_cards)));
    if (!draw() || !tell("check_rows", gimletaspen_check_rows(DRAWN)))
        return 1;
    for (uint32_t kind = GIMLETASPEN_KIND_QUERY; kind <= GIMLETASPEN_KIND_SUBSCRIPTION; kind++) {
        printf("%s root:", kinds[kind]);
        print_root(kind);
        puts("");
    }
    look_up("Embosser", "dots");
    look_up("Embosser", "__typename");
    look_up("Query", "__schema");
    look_up("Embosser", "paper");
    look_up("Student", "room");
    compare("Device", "Embosser");
    compare("Machine", "Embosser");
    compare("Embosser", "Device");
    print_list("iter_origins", gimletaspen_iter_origins(DRAWN, list, GIMLETASPEN_GROUP_WORDS));
    print_list("extensions", gimletaspen_extensions(DRAWN, list, GIMLETASPEN_GROUP_WORDS));
    print_groups(gimletaspen_implementers_map(DRAWN, list, GIMLETASPEN_GROUP_WORDS));
    /* Student has an extension and no definition, which is adopted now. */
    return !tell("adopt_orphan_extensions", gimletaspen_adopt_orphan_extensions(STORE)) || !draw();
}
