/*
 * Runs cases through flowawk_match, for tests/match.py.
 *
 * A case on standard input: the ERE's length and the text's, 4 bytes each, the low byte first, then the ERE and the text. A line on standard output
 * for each: outcome, rstart and rlength. ERE and text each lie in memory of just their size, and both numbers hold something else before the call.
 */
#include "cases.h"

int main(void)
{
    uint8_t head[8];
    while (filled(head, sizeof head)) {
        size_t m = number(head, 4), n = number(head + 4, 4);
        uint8_t *ere = bytes(m), *text = bytes(n);
        uint64_t rstart = UINT64_MAX;
        int64_t rlength = INT64_MIN;
        uint64_t outcome = flowawk_match(ere, m, text, n, &rstart, &rlength);
        printf("%" PRIu64 " %" PRIu64 " %" PRId64 "\n", outcome, rstart, rlength);
        free(ere);
        free(text);
    }
    return 0;
}
