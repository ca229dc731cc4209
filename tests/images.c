/*
 * Runs cases through flowawk_check, flowawk_read and flowawk_write, for tests/images.py.
 *
 * A case on standard input: the image's length and the words of the room for its content, the words of a content and the bytes of the room for its image, 4 bytes each, the
 * low byte first, then the image and the content, 8 bytes a word. A line on standard output for each: the outcome of the check; outcome and length of the reading, and
 * a sum of all bytes of the room after; outcome and length of the writing, and the sum of its room. Each lies in memory of just its size. Before a call the bytes of
 * a room are 0xa5.
 */
#include <string.h>

#include "cases.h"

/* The usual CRC-32 of some bytes. */
static uint32_t sum(const uint8_t *b, size_t count)
{
    uint32_t c = 0xffffffff;
    for (size_t i = 0; i < count; i++) {
        c ^= b[i];
        for (int k = 0; k < 8; k++)
            c = c >> 1 ^ (c & 1 ? 0xedb88320 : 0);
    }
    return ~c;
}

/* A room of so many bytes; none: a null pointer. */
static void *lent(size_t count)
{
    if (count == 0)
        return NULL;
    void *r = malloc(count);
    if (r == NULL)
        fail("no memory");
    return memset(r, 0xa5, count);
}

/* The words of some bytes, in memory of their size. */
static uint64_t *words(uint8_t *b, size_t count)
{
    uint64_t *w = lent(count * 8);
    for (size_t i = 0; i < count; i++)
        w[i] = number(b + i * 8, 8);
    free(b);
    return w;
}

int main(void)
{
    uint8_t head[16];
    while (filled(head, sizeof head)) {
        size_t n = number(head, 4), read_words = number(head + 4, 4), m = number(head + 8, 4), write_bytes = number(head + 12, 4);
        uint8_t *image = bytes(n);
        uint64_t *content = words(bytes(m * 8), m);
        uint64_t *to_words = lent(read_words * 8);
        uint8_t *to_bytes = lent(write_bytes);
        uint64_t was_read = UINT64_MAX, was_written = UINT64_MAX;
        uint64_t checked = flowawk_check(image, n);
        uint64_t reading = flowawk_read(image, n, to_words, read_words, &was_read);
        uint64_t writing = flowawk_write(content, m, to_bytes, write_bytes, &was_written);
        printf("%" PRIu64 " %" PRIu64 " %" PRIu64 " %" PRIu32 " %" PRIu64 " %" PRIu64 " %" PRIu32 "\n", checked, reading, was_read,
               sum((uint8_t *)to_words, read_words * 8), writing, was_written, sum(to_bytes, write_bytes));
        free(image);
        free(content);
        free(to_words);
        free(to_bytes);
    }
    return 0;
}
