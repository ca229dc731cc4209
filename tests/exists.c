/*
 * Runs cases through prepared_exists, for tests/exists.py, over libbench_ere.a.
 *
 * A case on standard input is one of tests/match.c. A line on standard output for each: 1 if there is a match, 0 if there is none, 2 if the ERE is
 * refused. With the argument `hostile` it times 512 bytes of `a` against `(a|aa)*b` instead, and writes the least nanoseconds of 100 searches.
 */
#include <string.h>
#include <time.h>

#include "cases.h"

#define WORDS 907

uint64_t prepared_compile(const uint8_t *ere, size_t length, uint64_t *table, size_t words);
uint64_t prepared_exists(const uint64_t *table, size_t words, const uint8_t *text, size_t length);

static uint64_t table[WORDS];

static int hostile(void)
{
    static const uint8_t ere[] = "(a|aa)*b";
    uint8_t text[512];
    uint64_t least = UINT64_MAX;
    memset(text, 'a', sizeof text);
    if (!prepared_compile(ere, sizeof ere - 1, table, WORDS))
        fail("the ERE is refused");
    for (int i = 0; i < 100; i++) {
        struct timespec a, b;
        clock_gettime(CLOCK_MONOTONIC, &a);
        if (prepared_exists(table, WORDS, text, sizeof text))
            fail("a match where there is none");
        clock_gettime(CLOCK_MONOTONIC, &b);
        uint64_t t = (uint64_t)((b.tv_sec - a.tv_sec) * 1000000000 + b.tv_nsec - a.tv_nsec);
        if (t < least)
            least = t;
    }
    printf("%" PRIu64 "\n", least);
    return 0;
}

int main(int argc, char **argv)
{
    uint8_t head[8];
    if (argc > 1 && strcmp(argv[1], "hostile") == 0)
        return hostile();
    while (filled(head, sizeof head)) {
        size_t m = number(head, 4), n = number(head + 4, 4);
        uint8_t *ere = bytes(m), *text = bytes(n);
        puts(!prepared_compile(ere, m, table, WORDS) ? "2" : prepared_exists(table, WORDS, text, n) ? "1" : "0");
        free(ere);
        free(text);
    }
    return 0;
}
