/*
 * Runs cases through flowawk_translate, for tests/translate.py.
 *
 * A case on standard input: the length of the text and the size of the image room, 4 bytes each, the low byte first, then the text. A line on
 * standard output for each: outcome, place, and a hash of the whole room. Everything lies in memory of just its size.
 */
#include "cases.h"

#include <string.h>

int main(void)
{
    uint8_t head[8];
    while (filled(head, sizeof head)) {
        size_t n = number(head, 4), size = number(head + 4, 4);
        uint8_t *text = bytes(n), *image = room(size);
        memset(image, 0xa5, size);
        uint64_t place = UINT64_MAX;
        uint64_t outcome = flowawk_translate(text, n, image, size, &place);
        printf("%" PRIu64 " %" PRIu64 " %" PRIu64 "\n", outcome, place, hashed(image, size));
        free(text);
        free(image);
    }
    return 0;
}
