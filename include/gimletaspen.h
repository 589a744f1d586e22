/* Gimletaspen for C: merges a collection of GraphQL type definitions.
 *
 * Link crates/gimletaspen/out/libgimletaspen.a (`rt lib` in crates/gimletaspen proves the library and writes it; x86-64). docs/FORMAT.md is the reference
 * for everything that is lent and written, with tables; examples/c/example.c uses every call.
 *
 * Every slice is a pointer and then its length in elements. A pointer is never kept after the call. No slice that is written may overlap another of the
 * same call. Pointers must be valid and, for words, aligned, even where the length is 0; that is all that is asked: whatever the contents and the lengths,
 * each call returns, and a call that is refused changes nothing that was lent.
 *
 * A document is its text and its cards, one card for each parsed item. A store is a text and words, lent by the caller with every call; what lies past
 * the sizes below is neither read nor written. Stored cards are numbered from 0 on through all documents. A row is three words: kind, card, origin. An
 * error row is three words: number, card, earlier card. GIMLETASPEN_NONE stands for no card. */
#ifndef GIMLETASPEN_H
#define GIMLETASPEN_H

#include <stddef.h>
#include <stdint.h>

#ifdef __cplusplus
extern "C" {
#endif

#define GIMLETASPEN_VERSION_MAJOR 0
#define GIMLETASPEN_VERSION_MINOR 1
#define GIMLETASPEN_VERSION_PATCH 0
#define GIMLETASPEN_VERSION "0.1.0"

/* The least lengths of slices that are lent. */
#define GIMLETASPEN_TEXT_BYTES 65536    /* a store's text */
#define GIMLETASPEN_STORE_WORDS 11761   /* a store's words */
#define GIMLETASPEN_ROW_WORDS 6912      /* a slice for rows: 2,304 of three words */
#define GIMLETASPEN_ERROR_WORDS 6900    /* a slice for error rows: 2,300 of three words */
#define GIMLETASPEN_ORIGIN_WORDS 2304   /* a slice for origins or extensions */
#define GIMLETASPEN_GROUP_WORDS 9200    /* a slice for groups of implementers */
#define GIMLETASPEN_READ_CARD_WORDS 11500 /* a slice for the cards of a text that is read: 2,300 of five words */

/* How many words one card has, and one row or error row. */
#define GIMLETASPEN_CARD_WORDS 5
#define GIMLETASPEN_WORDS_PER_ROW 3

/* The word that stands for no card. */
#define GIMLETASPEN_NONE UINT32_MAX

/* The words of a card. An item and a name are spans of the document's text; the name 0, 0 is absent. */
enum gimletaspen_card_word {
    GIMLETASPEN_WORD_KIND = 0,
    GIMLETASPEN_WORD_ITEM_OFFSET = 1,
    GIMLETASPEN_WORD_ITEM_LENGTH = 2,
    GIMLETASPEN_WORD_NAME_OFFSET = 3,
    GIMLETASPEN_WORD_NAME_LENGTH = 4
};

/* Where the first stored card begins among a store's words; card c begins GIMLETASPEN_CARD_WORDS * c words after it. Its spans are moved, so that they are
 * spans of the store's text; an absent name stays 0, 0. */
#define GIMLETASPEN_CARDS_AT 261

/* What a card is: a heading (1 to 17), or a part (20 to 28) of the heading before it. A row's first word is of these too: 4 for the schema, 3 for a directive
 * definition, 5 to 10 for a type, 20 to 28 for a part. */
enum gimletaspen_kind {
    GIMLETASPEN_KIND_OPERATION_DEFINITION = 1,
    GIMLETASPEN_KIND_FRAGMENT_DEFINITION = 2,
    GIMLETASPEN_KIND_DIRECTIVE_DEFINITION = 3,
    GIMLETASPEN_KIND_SCHEMA_DEFINITION = 4,
    GIMLETASPEN_KIND_SCALAR_TYPE_DEFINITION = 5,
    GIMLETASPEN_KIND_OBJECT_TYPE_DEFINITION = 6,
    GIMLETASPEN_KIND_INTERFACE_TYPE_DEFINITION = 7,
    GIMLETASPEN_KIND_UNION_TYPE_DEFINITION = 8,
    GIMLETASPEN_KIND_ENUM_TYPE_DEFINITION = 9,
    GIMLETASPEN_KIND_INPUT_OBJECT_TYPE_DEFINITION = 10,
    GIMLETASPEN_KIND_SCHEMA_EXTENSION = 11,
    GIMLETASPEN_KIND_SCALAR_TYPE_EXTENSION = 12,
    GIMLETASPEN_KIND_OBJECT_TYPE_EXTENSION = 13,
    GIMLETASPEN_KIND_INTERFACE_TYPE_EXTENSION = 14,
    GIMLETASPEN_KIND_UNION_TYPE_EXTENSION = 15,
    GIMLETASPEN_KIND_ENUM_TYPE_EXTENSION = 16,
    GIMLETASPEN_KIND_INPUT_OBJECT_TYPE_EXTENSION = 17,
    GIMLETASPEN_KIND_DIRECTIVE = 20,                /* a directive's use on the schema or on a type */
    GIMLETASPEN_KIND_IMPLEMENTS_INTERFACE = 21,     /* a name after `implements` */
    GIMLETASPEN_KIND_FIELD_DEFINITION = 22,         /* of an object or interface type */
    GIMLETASPEN_KIND_UNION_MEMBER = 23,
    GIMLETASPEN_KIND_ENUM_VALUE_DEFINITION = 24,
    GIMLETASPEN_KIND_INPUT_VALUE_DEFINITION = 25,   /* a field of an input object type */
    GIMLETASPEN_KIND_QUERY = 26,                    /* 26 to 28: a root operation; its name is that of the root's type */
    GIMLETASPEN_KIND_MUTATION = 27,
    GIMLETASPEN_KIND_SUBSCRIPTION = 28
};

/* What an error row's first word says, after the variants of the Rust's `BuildError`. The second word is the card that is left out; the third is a card
 * before it (2 to 4 and 8: a heading; 9 to 16: the part that stays, none where that is a default root), else GIMLETASPEN_NONE. */
enum gimletaspen_error {
    GIMLETASPEN_ERROR_EXECUTABLE_DEFINITION = 1,                        /* an operation or a fragment among type definitions */
    GIMLETASPEN_ERROR_SCHEMA_DEFINITION_COLLISION = 2,                  /* a second schema definition */
    GIMLETASPEN_ERROR_DIRECTIVE_DEFINITION_COLLISION = 3,               /* a second definition of a directive that is not built-in */
    GIMLETASPEN_ERROR_TYPE_DEFINITION_COLLISION = 4,                    /* a second definition of a type */
    GIMLETASPEN_ERROR_BUILT_IN_SCALAR_TYPE_REDEFINITION = 5,            /* a scalar definition of a built-in type's name */
    GIMLETASPEN_ERROR_ORPHAN_SCHEMA_EXTENSION = 6,                      /* a schema extension, and no schema to extend */
    GIMLETASPEN_ERROR_ORPHAN_TYPE_EXTENSION = 7,                        /* a type extension whose type no definition brings */
    GIMLETASPEN_ERROR_TYPE_EXTENSION_KIND_MISMATCH = 8,                 /* a type extension of another kind than its type */
    GIMLETASPEN_ERROR_DUPLICATE_ROOT_OPERATION = 9,                     /* 9 to 16: a part that comes again */
    GIMLETASPEN_ERROR_DUPLICATE_IMPLEMENTS_INTERFACE_IN_OBJECT = 10,
    GIMLETASPEN_ERROR_DUPLICATE_IMPLEMENTS_INTERFACE_IN_INTERFACE = 11,
    GIMLETASPEN_ERROR_OBJECT_FIELD_NAME_COLLISION = 12,
    GIMLETASPEN_ERROR_INTERFACE_FIELD_NAME_COLLISION = 13,
    GIMLETASPEN_ERROR_ENUM_VALUE_NAME_COLLISION = 14,
    GIMLETASPEN_ERROR_UNION_MEMBER_NAME_COLLISION = 15,
    GIMLETASPEN_ERROR_INPUT_FIELD_NAME_COLLISION = 16
};

/* How many error numbers there are: 1 and up. */
#define GIMLETASPEN_ERROR_NUMBERS 16

/* Why a call was refused; 0 is an accepted call. Where several hold, the first of 21, 22, 26, 7, 1, the first faulty card with the first of 2, 3, 4, 27,
 * 28, 5 that holds for it, 6, 23, 24, 25 is told; of a text that is read, the first of 31, 24, 29 or 30, 25. docs/FORMAT.md says which call asks which. */
enum gimletaspen_refusal {
    GIMLETASPEN_ACCEPTED = 0,
    GIMLETASPEN_CARDS_BROKEN = 1,       /* the card words are not whole cards */
    GIMLETASPEN_CARD_KIND = 2,          /* a card's kind is none of those above */
    GIMLETASPEN_CARD_SPAN = 3,          /* its item is empty, past the text, outside its heading's item, or begins before the sibling in front of it ends */
    GIMLETASPEN_CARD_NAME = 4,          /* its name is outside the item or (21, 23) not just the item */
    GIMLETASPEN_CARD_ORDER = 5,         /* a part without heading, under a heading that has none of its kind, or after parts that it must precede */
    GIMLETASPEN_NOT_BUILT_IN = 6,       /* document 0 has an operation, fragment, schema definition or extension, or gives an error by itself */
    GIMLETASPEN_SLICE_SHORT = 7,        /* a slice to be written is shorter than its least length above */
    GIMLETASPEN_STORE_SHORT = 21,       /* the store's text or words are shorter than their least length above */
    GIMLETASPEN_STORE_DAMAGED = 22,     /* the store's contents are none that the calls below leave; an unopened store's are not either */
    GIMLETASPEN_DOCUMENTS_FULL = 23,    /* the store holds 64 documents already */
    GIMLETASPEN_TEXT_FULL = 24,         /* its text would pass 65,536 bytes */
    GIMLETASPEN_CARDS_FULL = 25,        /* its cards would pass 2,300 */
    GIMLETASPEN_ROWS_REFUSED = 26,      /* the lent rows are not whole rows in the order of a catalogue, or their cards are not this store's */
    GIMLETASPEN_CARD_NAME_PRESENCE = 27, /* a card's name is missing, or there and should not be */
    GIMLETASPEN_CARD_NAME_BYTES = 28,   /* the bytes of a card's name are no Name */
    GIMLETASPEN_NOT_IN_GRAMMAR = 29,    /* no text of the type language goes on so: at a token, at a byte that begins nothing, or at the text's end */
    GIMLETASPEN_NESTED_TOO_DEEP = 30,   /* a value or a list type opens a 33rd level */
    GIMLETASPEN_READ_CARDS_SHORT = 31   /* the slice for the cards of a text is shorter than its least length above */
};

/* A refusal, or 0. `card` is, for 2 to 6, 27 and 28, the number of the card in its own document, from 0; for 29 and 30 the place in the text, in bytes; for an
 * accepted call that fills a slice how many cards, origins, extensions or groups it wrote; else 0. */
struct gimletaspen_answer {
    uint32_t number;
    size_t card;
};

/* counts[n - 1] is how many error rows have the number n; total is how many there are. */
struct gimletaspen_tallies {
    uint32_t counts[GIMLETASPEN_ERROR_NUMBERS];
    uint32_t total;
};

/* A refusal, or 0; how many rows were written; how many errors arose while reading documents and, after them, while drawing. Refused, all else is 0. */
struct gimletaspen_drawing {
    uint32_t number;
    uint32_t rows;
    uint32_t reading_errors;
    uint32_t drawing_errors;
    struct gimletaspen_tallies tallies;
};

/* What became of a field that was looked up. */
enum gimletaspen_field {
    GIMLETASPEN_FIELD_REFUSED = 0,
    GIMLETASPEN_FIELD_FOUND = 1,
    GIMLETASPEN_FIELD_NO_SUCH_TYPE = 2,
    GIMLETASPEN_FIELD_NO_SUCH_FIELD = 3
};

/* Which field was found. */
enum gimletaspen_meta {
    GIMLETASPEN_META_EXPLICIT = 0,      /* one that the type has, by its card */
    GIMLETASPEN_META_TYPENAME = 1,      /* __typename, __schema and __type have no card */
    GIMLETASPEN_META_SCHEMA = 2,
    GIMLETASPEN_META_TYPE = 3
};

/* refusal: a refusal, or 0. number: one of gimletaspen_field. meta: of a found field one of gimletaspen_meta, else GIMLETASPEN_NONE. card: of an explicit
 * field its card, with no such field the card of the type's row, else GIMLETASPEN_NONE. */
struct gimletaspen_field_lookup {
    uint32_t refusal;
    uint32_t number;
    uint32_t meta;
    uint32_t card;
};

/* refusal: a refusal, or 0. yes: 1 for a subtype, else 0, also where the call is refused. */
struct gimletaspen_subtype_lookup {
    uint32_t refusal;
    uint32_t yes;
};

/* Reads a text of the type language (GraphQL, October 2021, type definitions and extensions alone, in UTF-8) into the cards that it is filed with. The slice
 * has at least GIMLETASPEN_READ_CARD_WORDS words. Answers 0 and how many cards there are: the slice begins with their words, GIMLETASPEN_CARD_WORDS each. Asks
 * 31, 24 (of this text alone), 29 or 30, whichever comes first in the text, and 25 last. No store is lent. */
struct gimletaspen_answer gimletaspen_parse(const uint8_t *text, size_t text_length, uint32_t *cards, size_t cards_length);

/* Files document 0, the built-in definitions, over whatever the store held; both switches are off then. */
struct gimletaspen_answer gimletaspen_open(
    uint8_t *text, size_t text_length, uint32_t *words, size_t words_length,
    const uint8_t *document, size_t document_length, const uint32_t *cards, size_t cards_length);

/* Files a document after those held. */
struct gimletaspen_answer gimletaspen_add_ast(
    uint8_t *text, size_t text_length, uint32_t *words, size_t words_length,
    const uint8_t *document, size_t document_length, const uint32_t *cards, size_t cards_length);

/* Turns the adopt switch on, for good: every drawing from now on lets extensions without a definition define their types. */
struct gimletaspen_answer gimletaspen_adopt_orphan_extensions(
    const uint8_t *text, size_t text_length, uint32_t *words, size_t words_length);

/* Turns the ignore switch on, for good: documents filed from now on may define the types of document 0 again, which is passed over without an error. */
struct gimletaspen_answer gimletaspen_ignore_builtin_redefinitions(
    const uint8_t *text, size_t text_length, uint32_t *words, size_t words_length);

/* Merges all that is filed into rows and error rows, those of reading first; words past them stay. */
struct gimletaspen_drawing gimletaspen_build(
    const uint8_t *text, size_t text_length, const uint32_t *words, size_t words_length,
    uint32_t *rows, size_t rows_length, uint32_t *errors, size_t errors_length);

/* The lookups take the rows of a drawing and no word more: GIMLETASPEN_WORDS_PER_ROW * drawing.rows words. They ask 21, 22 and 26. */

/* Whether lookups over these rows are accepted: 0, or 21, 22, 26. */
struct gimletaspen_answer gimletaspen_check_rows(
    const uint8_t *text, size_t text_length, const uint32_t *words, size_t words_length, const uint32_t *rows, size_t rows_length);

/* The length of a root's type name, 0 if there is none or the call is refused (gimletaspen_check_rows tells which). kind is GIMLETASPEN_KIND_QUERY,
 * GIMLETASPEN_KIND_MUTATION or GIMLETASPEN_KIND_SUBSCRIPTION; for any other number the answer is 0, whatever else is lent, and nothing is written. The name
 * is copied to the front of `name` where it fits; else nothing is written and its length is told all the same. No byte follows the name. */
size_t gimletaspen_root_operation(
    const uint8_t *text, size_t text_length, const uint32_t *words, size_t words_length, const uint32_t *rows, size_t rows_length,
    uint32_t kind, uint8_t *name, size_t name_length);

/* A type's field: an explicit one first, then a meta field. Names may be any bytes; nothing is written. */
struct gimletaspen_field_lookup gimletaspen_type_field(
    const uint8_t *text, size_t text_length, const uint32_t *words, size_t words_length, const uint32_t *rows, size_t rows_length,
    const uint8_t *type_name, size_t type_name_length, const uint8_t *field, size_t field_length);

/* Whether `other` itself lists the interface `general`, or is listed by the union `general`. */
struct gimletaspen_subtype_lookup gimletaspen_is_subtype(
    const uint8_t *text, size_t text_length, const uint32_t *words, size_t words_length, const uint32_t *rows, size_t rows_length,
    const uint8_t *general, size_t general_length, const uint8_t *other, size_t other_length);

/* The three calls below fill a list, whose length 7 asks after 26, and answer 0 and how many origins, extensions or groups they wrote. */

/* The origin of each of the schema's directive uses and roots, in order: GIMLETASPEN_NONE for the definition and for default roots, else an extension's
 * card. The list has at least GIMLETASPEN_ORIGIN_WORDS words. */
struct gimletaspen_answer gimletaspen_iter_origins(
    const uint8_t *text, size_t text_length, const uint32_t *words, size_t words_length, const uint32_t *rows, size_t rows_length,
    uint32_t *list, size_t list_length);

/* The extensions among them, each once, in order of first occurrence. The list has at least GIMLETASPEN_ORIGIN_WORDS words. */
struct gimletaspen_answer gimletaspen_extensions(
    const uint8_t *text, size_t text_length, const uint32_t *words, size_t words_length, const uint32_t *rows, size_t rows_length,
    uint32_t *list, size_t list_length);

/* A group for each interface that a type lists: the first card that names it, how many objects and how many interfaces list it, then the cards of these
 * types, so 3 + objects + interfaces words. Groups stand in the order of the rows of their first words. The list has at least GIMLETASPEN_GROUP_WORDS words. */
struct gimletaspen_answer gimletaspen_implementers_map(
    const uint8_t *text, size_t text_length, const uint32_t *words, size_t words_length, const uint32_t *rows, size_t rows_length,
    uint32_t *list, size_t list_length);

#ifdef __cplusplus
}
#endif

#endif
