/*
 * Times the reading and the writing of images, for bench/images.py, over libcapi.a.
 *
 *   images SECONDS IMAGE..
 *
 * For each file the image in it is read and what was read is written again, some 100,000 bytes each time, until
 * SECONDS have passed, and a line is written: the image's bytes and words, and the least time of a reading and of a
 * writing in picoseconds for a byte of the image. The rooms are just large enough, and what is written must be the
 * image again.
 */
#include <inttypes.h>
#include <stdio.h>
#include <stdlib.h>
#include <string.h>
#include <time.h>

#include "flowawk.h"

#define MOST (1 << 17)

static uint8_t image[MOST], written[MOST];
static uint64_t content[MOST];

static uint64_t now(void)
{
    struct timespec t;
    clock_gettime(CLOCK_MONOTONIC, &t);
    return (uint64_t)t.tv_sec * 1000000000 + (uint64_t)t.tv_nsec;
}

static size_t load(const char *name)
{
    FILE *f = fopen(name, "rb");
    if (f == NULL) {
        perror(name);
        exit(1);
    }
    size_t n = fread(image, 1, sizeof image, f);
    fclose(f);
    return n;
}

/* Reads so many times; the outcomes' sum. */
static uint64_t readings(size_t n, uint64_t words, uint64_t count)
{
    uint64_t outcomes = 0, length;
    for (uint64_t i = 0; i < count; i++)
        outcomes += flowawk_read(image, n, content, words, &length);
    return outcomes;
}

/* Writes so many times; the outcomes' sum. */
static uint64_t writings(size_t n, uint64_t words, uint64_t count)
{
    uint64_t outcomes = 0, length;
    for (uint64_t i = 0; i < count; i++)
        outcomes += flowawk_write(content, words, written, n, &length);
    return outcomes;
}

int main(int argc, char **argv)
{
    if (argc < 2)
        return 1;
    uint64_t most = (uint64_t)(strtod(argv[1], NULL) * 1e9);
    for (int k = 2; k < argc; k++) {
        size_t n = load(argv[k]);
        uint64_t words, outcomes = flowawk_read(image, n, content, MOST, &words), count = 1 + 100000 / (n + 1);
        uint64_t reading = UINT64_MAX, writing = UINT64_MAX, begun = now();
        do {
            uint64_t from = now();
            outcomes += readings(n, words, count);
            uint64_t between = now();
            outcomes += writings(n, words, count);
            uint64_t to = now();
            reading = between - from < reading ? between - from : reading;
            writing = to - between < writing ? to - between : writing;
        } while (now() - begun < most);
        if (outcomes != 0 || memcmp(image, written, n) != 0) {
            fprintf(stderr, "%s: not read and written again\n", argv[k]);
            return 1;
        }
        uint64_t bytes = count * n;
        printf("%zu %" PRIu64 " %" PRIu64 " %" PRIu64 "\n", n, words, reading * 1000 / bytes, writing * 1000 / bytes);
    }
    return 0;
}
