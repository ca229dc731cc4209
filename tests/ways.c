/*
 * Translates texts and runs what was written, for tests/ways.py.
 *
 * A case on standard input: the lengths of the text and of the lines and the size of the output room, 4 bytes each, the budget, 8 bytes, the low
 * byte first, then the text and the lines. A line on standard output for each: outcome and place of the translation; then of the run its
 * outcome, steps, records, bytes, and a hash of the whole output room, all 0 where there was none.
 */
#include "cases.h"

#include <string.h>

static uint8_t image[1 << 16], work[49152];

int main(void)
{
    uint8_t head[20];
    while (filled(head, sizeof head)) {
        size_t n = number(head, 4), m = number(head + 4, 4), size = number(head + 8, 4);
        uint8_t *text = bytes(n), *lines = bytes(m), *output = room(size);
        memset(output, 0xa5, size);
        uint64_t place, ended = 0, steps = 0, records = 0, written = 0, hash = 0;
        uint64_t outcome = flowawk_translate(text, n, image, sizeof image, &place);
        if (outcome == 0) {
            ended = flowawk_run(image, place, lines, m, output, size, work, sizeof work, number(head + 12, 8), &steps, &records, &written);
            hash = hashed(output, size);
        }
        printf("%" PRIu64 " %" PRIu64 " %" PRIu64 " %" PRIu64 " %" PRIu64 " %" PRIu64 " %" PRIu64 "\n", outcome, place, ended, steps, records,
               written, hash);
        free(text);
        free(lines);
        free(output);
    }
    return 0;
}
