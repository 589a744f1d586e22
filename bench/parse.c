/* How long reading a text takes: parse FILE TIMES [BYTES]. Prints nanoseconds a call, the middle one and the longest, and beside them those of a plain pass
 * over the same bytes. With TIMES 0 the text is read once, for counting instructions; BYTES cuts it off there. */
#include "gimletaspen.h"
#include <stdio.h>
#include <stdlib.h>
#include <time.h>

#define FILE_BYTES (1 << 20)
#define MOST_TIMES 100000

static uint8_t text[FILE_BYTES];
static size_t length;
static uint32_t cards[GIMLETASPEN_READ_CARD_WORDS];
static struct gimletaspen_answer answer;
static volatile uint32_t total;

static void fail(const char *what) {
    fprintf(stderr, "parse: %s\n", what);
    exit(1);
}

/* Never inlined, so that a profiler shows what one reading costs. */
__attribute__((noinline)) static void read_text(void) {
    answer = gimletaspen_parse(text, length, cards, GIMLETASPEN_READ_CARD_WORDS);
}

/* The least that reading could be. */
__attribute__((noinline)) static void pass_over(void) {
    uint32_t sum = 0;
    for (size_t i = 0; i < length; i++)
        sum += text[i];
    total = sum;
}

/* The processor's time of this program alone: another one that runs beside it does not count, so that the longest call means something. */
static double now(void) {
    struct timespec time;
    clock_gettime(CLOCK_THREAD_CPUTIME_ID, &time);
    return (double)time.tv_sec * 1e9 + (double)time.tv_nsec;
}

static int compare(const void *a, const void *b) {
    double x = *(const double *)a, y = *(const double *)b;
    return (x > y) - (x < y);
}

static void measure(const char *title, void (*what)(void), long times) {
    static double each[MOST_TIMES];
    what();
    what();
    for (long i = 0; i < times; i++) {
        double start = now();
        what();
        each[i] = now() - start;
    }
    qsort(each, (size_t)times, sizeof(double), compare);
    printf("%s %.0f %.0f\n", title, each[times / 2], each[times - 1]);
}

int main(int count, char **arguments) {
    if (count != 3 && count != 4)
        fail("usage: parse FILE TIMES [BYTES]");
    FILE *file = fopen(arguments[1], "rb");
    if (!file)
        fail("no such file");
    length = fread(text, 1, sizeof text, file);
    fclose(file);
    if (count == 4 && (size_t)atol(arguments[3]) < length)
        length = (size_t)atol(arguments[3]);
    long times = atol(arguments[2]);
    if (times > MOST_TIMES)
        times = MOST_TIMES;
    if (times == 0) {
        read_text();
        return 0;
    }
    measure("parse", read_text, times);
    measure("pass", pass_over, times);
    printf("answer %u %zu\n", answer.number, (size_t)answer.card);
    return 0;
}
