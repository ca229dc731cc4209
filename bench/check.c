/*
 * Times the check of images, for bench/check.py, over libcapi.a.
 *
 *   check COUNT SECONDS IMAGE..
 *
 * For each file the image in it is checked COUNT times and again, until SECONDS have passed, and a line is written: the outcome, and the least time of COUNT checks
 * in nanoseconds.
 */
#include <inttypes.h>
#include <stdio.h>
#include <stdlib.h>
#include <time.h>

#include "flowawk.h"

static uint8_t image[1 << 17];

static uint64_t now(void)
{
    struct timespec t;
    clock_gettime(CLOCK_MONOTONIC, &t);
    return (uint64_t)t.tv_sec * 1000000000 + (uint64_t)t.tv_nsec;
}

static size_t load(const char *name)
{
    FILE *f = fopen(name, "rb");
    if (f == NULL) {
        perror(name);
        exit(1);
    }
    size_t n = fread(image, 1, sizeof image, f);
    fclose(f);
    return n;
}

/* Checks so many times; the outcomes' sum, so that no check is left out. */
static uint64_t checks(size_t n, uint64_t count)
{
    uint64_t outcomes = 0;
    for (uint64_t i = 0; i < count; i++)
        outcomes += flowawk_check(image, n);
    return outcomes;
}

int main(int argc, char **argv)
{
    if (argc < 3)
        return 1;
    uint64_t count = strtoull(argv[1], NULL, 10), most = (uint64_t)(strtod(argv[2], NULL) * 1e9);
    for (int k = 3; k < argc; k++) {
        size_t n = load(argv[k]);
        uint64_t least = UINT64_MAX, outcomes = 0, begun = now();
        do {
            uint64_t from = now();
            outcomes = checks(n, count);
            uint64_t took = now() - from;
            least = took < least ? took : least;
        } while (now() - begun < most);
        printf("%" PRIu64 " %" PRIu64 "\n", outcomes / count, least);
    }
    return 0;
}
