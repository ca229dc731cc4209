/*
 * Runs cases through the automata of an ERE and through its table, for tests/automaton.py, over libbench_ere.a.
 *
 * A case on standard input: the ERE's length, the text's, how many bytes of it are taken off (`at`), and the least length of a match, 4 bytes
 * each, the low byte first, then the ERE and the text. A line on standard output for each: whether there is a match in the text, by the table and by
 * the automaton; and the match in the text from `at` on, by the table and by the automata, as (at + start) * 1024 + length + 1, or 0. `-` stands for
 * an automaton that doesn't fit; the line is empty if the ERE is refused. The bytes that are searched lie in memory of just their size.
 */
#include <string.h>

#include "cases.h"

#define WORDS 907
#define NONE ((uint64_t)1 << 60)

uint64_t prepared_compile(const uint8_t *ere, size_t length, uint64_t *table, size_t words);
uint64_t prepared_exists(const uint64_t *table, size_t words, const uint8_t *text, size_t length);
uint64_t derived_exists(const uint64_t *table, size_t words, const uint8_t *text, size_t length);
uint64_t prepared_seek(const uint64_t *table, size_t words, const uint8_t *rest, size_t length, uint64_t at, uint64_t least);
uint64_t derived_seek(const uint64_t *table, size_t words, const uint8_t *rest, size_t length, uint64_t at, uint64_t least);

static uint64_t table[WORDS];

static void show(uint64_t answer, char after)
{
    if (answer == NONE)
        printf("-%c", after);
    else
        printf("%" PRIu64 "%c", answer, after);
}

int main(void)
{
    uint8_t head[16];
    while (filled(head, sizeof head)) {
        size_t m = number(head, 4), n = number(head + 4, 4), at = number(head + 8, 4), least = number(head + 12, 4);
        uint8_t *ere = bytes(m), *text = bytes(n), *rest = malloc(n - at + !(n - at));
        memcpy(rest, text + at, n - at);
        memset(table, 0, sizeof table);
        if (prepared_compile(ere, m, table, WORDS)) {
            show(prepared_exists(table, WORDS, text, n), ' ');
            show(derived_exists(table, WORDS, text, n), ' ');
            show(prepared_seek(table, WORDS, rest, n - at, at, least), ' ');
            show(derived_seek(table, WORDS, rest, n - at, at, least), '\n');
        } else {
            puts("");
        }
        free(ere);
        free(text);
        free(rest);
    }
    return 0;
}
