/*
 * Runs cases through flowawk_split and flowawk_field, for tests/split.py.
 *
 * A case on standard input: the record's length and the separator's, 4 bytes each, and k, 8 bytes, the low byte first, then the record and the
 * separator. A line on standard output for each: outcome and count of the split, then outcome, start and length of field k. Record and separator each
 * lie in memory of just their size, and all numbers hold something else before the call.
 */
#include "cases.h"

int main(void)
{
    uint8_t head[16];
    while (filled(head, sizeof head)) {
        size_t n = number(head, 4), m = number(head + 4, 4);
        uint8_t *record = bytes(n), *fs = bytes(m);
        uint64_t count = UINT64_MAX, start = UINT64_MAX, length = UINT64_MAX;
        uint64_t split = flowawk_split(record, n, fs, m, &count);
        uint64_t field = flowawk_field(record, n, fs, m, number(head + 8, 8), &start, &length);
        printf("%" PRIu64 " %" PRIu64 " %" PRIu64 " %" PRIu64 " %" PRIu64 "\n", split, count, field, start, length);
        free(record);
        free(fs);
    }
    return 0;
}
