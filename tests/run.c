/*
 * Runs cases through flowawk_run, for tests/run.py.
 *
 * A case on standard input: the lengths of the image and of the lines, the sizes of the output room and of the working room, 4 bytes each, the
 * budget, 8 bytes, the low byte first, then the image and the lines. A line on standard output for each: outcome, steps, records, bytes, a
 * hash of the whole output room, and 1, or 0 where a refused run changed the working room. Everything lies in memory of just its size; the
 * working room holds other bytes in each case.
 */
#include "cases.h"

#include <string.h>

int main(void)
{
    static uint64_t seed = 1;
    uint8_t head[24];
    while (filled(head, sizeof head)) {
        size_t n = number(head, 4), m = number(head + 4, 4), out = number(head + 8, 4), size = number(head + 12, 4);
        uint8_t *image = bytes(n), *lines = bytes(m), *output = room(out), *work = room(size), *old = room(size);
        for (size_t i = 0; i < size; i++) {
            seed = seed * 6364136223846793005u + 1442695040888963407u;
            work[i] = seed >> 56;
        }
        memcpy(old, work, size);
        memset(output, 0xa5, out);
        uint64_t steps = UINT64_MAX, records = UINT64_MAX, written = UINT64_MAX;
        uint64_t outcome = flowawk_run(image, n, lines, m, output, out, work, size, number(head + 16, 8), &steps, &records, &written);
        int refused = outcome == 8 || outcome == 9 || outcome == 19;
        printf("%" PRIu64 " %" PRIu64 " %" PRIu64 " %" PRIu64 " %" PRIu64 " %d\n", outcome, steps, records, written, hashed(output, out),
               !refused || memcmp(old, work, size) == 0);
        free(image);
        free(lines);
        free(output);
        free(work);
        free(old);
    }
    return 0;
}
