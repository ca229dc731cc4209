/*
 * Cases on standard input, for the programs of this folder: numbers with the low byte first, and bytes.
 */
#include <inttypes.h>
#include <stdio.h>
#include <stdlib.h>

#include "flowawk.h"

static void fail(const char *why)
{
    fprintf(stderr, "%s\n", why);
    exit(1);
}

/* Fills memory from standard input: 0 at the end of the input, before its first byte. */
static int filled(uint8_t *to, size_t count)
{
    size_t got = fread(to, 1, count, stdin);
    if (got != count && got != 0)
        fail("the input ends within a case");
    return got == count;
}

static uint64_t number(const uint8_t *b, int count)
{
    uint64_t n = 0;
    for (int i = count; i > 0; i--)
        n = n << 8 | b[i - 1];
    return n;
}

/* So many bytes of standard input, in memory of that size; none: a null pointer. */
static uint8_t *bytes(size_t count)
{
    if (count == 0)
        return NULL;
    uint8_t *b = malloc(count);
    if (b == NULL)
        fail("no memory");
    if (!filled(b, count))
        fail("the input ends within a case");
    return b;
}

/* Memory of just so many bytes. */
static inline uint8_t *room(size_t count)
{
    uint8_t *b = malloc(count ? count : 1);
    if (b == NULL)
        fail("no memory");
    return b;
}

/* FNV-1a, 64 bits. */
static inline uint64_t hashed(const uint8_t *b, size_t count)
{
    uint64_t h = 0xcbf29ce484222325u;
    for (size_t i = 0; i < count; i++)
        h = (h ^ b[i]) * 0x100000001b3u;
    return h;
}
