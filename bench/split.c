/*
 * Counts fields, for bench/split.py, over libcapi.a.
 *
 *   split FS < LINES      writes how many fields all lines have
 *   split < LINES         writes how many lines there are, and splits none
 *
 * Reads 64 KiB at a time, and splits each line where it stands.
 */
#include <inttypes.h>
#include <stdio.h>
#include <stdlib.h>
#include <string.h>
#include <unistd.h>

#include "flowawk.h"

static uint8_t room[1 << 16];
static const uint8_t *fs;
static size_t fs_length;

static void fail(const char *why)
{
    fprintf(stderr, "split: %s\n", why);
    exit(1);
}

/* What a line adds to the sum. */
static uint64_t fields(const uint8_t *line, size_t length)
{
    uint64_t count = 1;
    if (fs_length != 0 && flowawk_split(line, length, fs, fs_length, &count) != 0)
        fail("a line is refused");
    return count;
}

/* Adds what each whole line of the room's first bytes adds; how many bytes those lines take. */
static size_t taken(size_t held, uint64_t *sum)
{
    size_t at = 0;
    const uint8_t *end;
    while ((end = memchr(room + at, '\n', held - at)) != NULL) {
        size_t n = (size_t)(end - room) - at;
        *sum += fields(room + at, n);
        at += n + 1;
    }
    return at;
}

int main(int argc, char **argv)
{
    uint64_t sum = 0;
    size_t held = 0;
    ssize_t got;
    if (argc > 1) {
        fs = (const uint8_t *)argv[1];
        fs_length = strlen(argv[1]);
    }
    while ((got = read(0, room + held, sizeof room - held)) > 0) {
        held += (size_t)got;
        size_t done = taken(held, &sum);
        memmove(room, room + done, held - done);
        held -= done;
    }
    if (got < 0 || held != 0)
        fail("the input can't be read, or ends within a line, or a line is too long");
    printf("%" PRIu64 "\n", sum);
    return 0;
}
