/*
 * Times two ways to test a byte against the bracket [A-Za-z0-9_], for bench/match.py: by its ranges one after the other, and by one bit of four words.
 *
 *   bracket TURNS < LINES
 *
 * Writes the nanoseconds for one byte, each way. It fails if the two differ in how many bytes the bracket takes.
 */
#include <stddef.h>
#include <stdint.h>
#include <stdio.h>
#include <stdlib.h>
#include <time.h>

#define ROOM 1000000

struct range {
    uint8_t low, high;
};

static double now(void)
{
    struct timespec t;
    clock_gettime(CLOCK_MONOTONIC, &t);
    return (double)t.tv_sec * 1e9 + (double)t.tv_nsec;
}

__attribute__((noinline)) static int by_ranges(const struct range *r, size_t n, uint8_t b)
{
    for (size_t i = 0; i < n; i++)
        if (r[i].low <= b && b <= r[i].high)
            return 1;
    return 0;
}

__attribute__((noinline)) static int by_bit(const uint64_t *words, uint8_t b)
{
    return words[b / 64] >> (b % 64) & 1;
}

int main(int argc, char **argv)
{
    static uint8_t bytes[ROOM];
    const struct range ranges[] = {{'A', 'Z'}, {'a', 'z'}, {'0', '9'}, {'_', '_'}};
    uint64_t words[4] = {0};
    size_t turns = argc == 2 ? (size_t)atol(argv[1]) : 0, count = fread(bytes, 1, ROOM, stdin), first = 0, second = 0;
    for (int b = 0; b < 256; b++)
        words[b / 64] |= (uint64_t)by_ranges(ranges, 4, (uint8_t)b) << (b % 64);
    double start = now();
    for (size_t r = 0; r < turns; r++)
        for (size_t i = 0; i < count; i++)
            first += (size_t)by_ranges(ranges, 4, bytes[i]);
    double middle = now();
    for (size_t r = 0; r < turns; r++)
        for (size_t i = 0; i < count; i++)
            second += (size_t)by_bit(words, bytes[i]);
    double end = now();
    if (first != second || turns == 0 || count == 0) {
        fprintf(stderr, "bracket: nothing to time, or the two ways differ\n");
        return 1;
    }
    double runs = (double)turns * (double)count;
    printf("%.2f %.2f\n", (middle - start) / runs, (end - middle) / runs);
    return 0;
}
