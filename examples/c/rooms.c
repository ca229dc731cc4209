/*
 * Rooms that are too small: outcomes 7, 17 and 19. What is written stays inside the rooms, and a refusal leaves them as they were.
 *
 * Build: cc -I include examples/c/rooms.c target/staticlib/libcapi.a
 */
#include "flowawk.h"

#include <inttypes.h>
#include <stdio.h>
#include <string.h>

int main(void)
{
    static const uint8_t filter[] = "{ print }", lines[] = "first line\nsecond line\n";
    static uint8_t work[49152];
    uint8_t image[23], output[20];
    uint64_t place, words[4], written, steps, records, bytes;

    /* the image of this filter has 23 bytes; the place of a 7 is the text's length */
    uint64_t outcome = flowawk_translate(filter, sizeof filter - 1, image, 22, &place);
    printf("an image room of 22 bytes: outcome %" PRIu64 ", place %" PRIu64 "\n", outcome, place);
    outcome = flowawk_translate(filter, sizeof filter - 1, image, 23, &place);
    printf("an image room of 23 bytes: outcome %" PRIu64 ", place %" PRIu64 "\n", outcome, place);

    outcome = flowawk_read(image, sizeof image, words, 4, &written);
    printf("a content room of 4 words: outcome %" PRIu64 ", %" PRIu64 " words\n", outcome, written);

    /* a line is printed whole or not at all */
    memset(output, '.', sizeof output);
    outcome = flowawk_run(image, sizeof image, lines, sizeof lines - 1, output, sizeof output, work, sizeof work, 1000, &steps, &records, &bytes);
    printf("an output room of 20 bytes: outcome %" PRIu64 ", %" PRIu64 " bytes: %.*s", outcome, bytes, (int)bytes, (char *)output);
    printf("the rest: %.*s\n", (int)(sizeof output - bytes), (char *)output + bytes);

    outcome = flowawk_run(image, sizeof image, lines, sizeof lines - 1, output, sizeof output, work, sizeof work - 1, 1000, &steps, &records, &bytes);
    printf("a working room of 49151 bytes: outcome %" PRIu64 ", %" PRIu64 " steps\n", outcome, steps);
    return 0;
}
