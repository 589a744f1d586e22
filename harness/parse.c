/* The library's `parse`, for many texts at once: a text is lent for each that stands on standard input, as words length of text and length of slice and
 * then the text's bytes; the answer goes to standard output as words number, second number, what was wrongly changed, how many words follow, and these.
 * All words are little-endian.
 *
 * Text and slice end where a page ends behind which nothing may be touched, so that whatever is read or written past them stops the program. */
#define _GNU_SOURCE
#include "gimletaspen.h"
#include <stdio.h>
#include <stdlib.h>
#include <string.h>
#include <sys/mman.h>
#include <unistd.h>

#define MOST_BYTES (1 << 22)
#define MOST_WORDS (1 << 18)

/* What was changed that had to stay. */
#define CHANGED_REST 1
#define CHANGED_TEXT 2
#define CHANGED_BEFORE 4

static uint8_t copy[MOST_BYTES];

static void fail(const char *what) {
    fprintf(stderr, "parse: %s\n", what);
    exit(1);
}

/* The end of so many bytes, with a page behind it that can't be touched. */
static uint8_t *guarded(size_t size) {
    size_t page = (size_t)sysconf(_SC_PAGESIZE);
    uint8_t *made = mmap(NULL, size + page, PROT_READ | PROT_WRITE, MAP_PRIVATE | MAP_ANONYMOUS, -1, 0);
    if (made == MAP_FAILED || mprotect(made + size, page, PROT_NONE))
        fail("no memory");
    return made + size;
}

/* What stands in a word of the slice before the call: never what a card of a short text has there, and another one at each place. */
static uint32_t unwritten(size_t place) {
    return 0xA5000000u + (uint32_t)place;
}

static int read_word(uint32_t *word) {
    uint8_t bytes[4];
    size_t got = fread(bytes, 1, sizeof bytes, stdin);
    if (got == 0)
        return 0;
    if (got != sizeof bytes)
        fail("half a word");
    *word = (uint32_t)bytes[0] | (uint32_t)bytes[1] << 8 | (uint32_t)bytes[2] << 16 | (uint32_t)bytes[3] << 24;
    return 1;
}

static void write_word(uint32_t word) {
    uint8_t bytes[4] = {(uint8_t)word, (uint8_t)(word >> 8), (uint8_t)(word >> 16), (uint8_t)(word >> 24)};
    fwrite(bytes, 1, sizeof bytes, stdout);
}

int main(void) {
    uint8_t *text_end = guarded(MOST_BYTES);
    uint32_t *slice_end = (uint32_t *)(void *)guarded(MOST_WORDS * sizeof(uint32_t));
    uint32_t length, lent;
    while (read_word(&length)) {
        if (!read_word(&lent) || length > MOST_BYTES || lent >= MOST_WORDS)
            fail("no such lengths");
        uint8_t *text = text_end - length;
        uint32_t *slice = slice_end - lent;
        if (fread(copy, 1, length, stdin) != length)
            fail("half a text");
        memcpy(text, copy, length);
        for (size_t i = 0; i < lent; i++)
            slice[i] = unwritten(i);
        slice[-1] = unwritten(lent);
        struct gimletaspen_answer answer = gimletaspen_parse(text, length, slice, lent);
        size_t written = answer.number == GIMLETASPEN_ACCEPTED ? GIMLETASPEN_CARD_WORDS * (size_t)answer.card : 0;
        if (written > lent)
            fail("more cards than there is room for");
        uint32_t changed = memcmp(text, copy, length) ? CHANGED_TEXT : 0;
        for (size_t i = written; i < lent; i++)
            if (slice[i] != unwritten(i))
                changed |= CHANGED_REST;
        if (slice[-1] != unwritten(lent))
            changed |= CHANGED_BEFORE;
        write_word(answer.number);
        write_word((uint32_t)answer.card);
        write_word(changed);
        write_word((uint32_t)written);
        for (size_t i = 0; i < written; i++)
            write_word(slice[i]);
    }
    return 0;
}
