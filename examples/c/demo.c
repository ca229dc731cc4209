/*
 * Translates a filter once, checks its image, runs it with a budget, and reads a refusal.
 *
 *     demo FILTERFILE LINES
 *
 * Build: cc -I include examples/c/demo.c target/staticlib/libcapi.a
 */
#include "flowawk.h"

#include <inttypes.h>
#include <stdio.h>
#include <stdlib.h>
#include <string.h>

enum { FILTER = 8192, IMAGE = 65536, OUTPUT = 1 << 20, WORK = 49152 };

static uint8_t image[IMAGE], output[OUTPUT], again[OUTPUT], work[WORK];

struct bytes {
    uint8_t *at;
    size_t length;
};

struct answer {
    uint64_t outcome, records, steps, bytes;
};

/* Returns the bytes of a file. */
static struct bytes file(const char *name)
{
    struct bytes b = {NULL, 0};
    FILE *f = fopen(name, "rb");
    if (!f || fseek(f, 0, SEEK_END)) {
        perror(name);
        exit(1);
    }
    b.length = (size_t)ftell(f);
    rewind(f);
    b.at = malloc(b.length + 1);
    if (!b.at || fread(b.at, 1, b.length, f) != b.length) {
        perror(name);
        exit(1);
    }
    fclose(f);
    return b;
}

/* Translates a filter to `image`. Returns the image's length, or 0 after it said the outcome, the line and the column of a refusal. */
static size_t translate(struct bytes text)
{
    uint64_t place;
    uint64_t outcome = flowawk_translate(text.at, text.length, image, sizeof image, &place);
    if (outcome == 0)
        return place;
    size_t line = 1, column = 1;
    for (size_t i = 0; i < place; i++) {
        column++;
        if (text.at[i] == '\n') {
            line++;
            column = 1;
        }
    }
    printf("refused: outcome %" PRIu64 " at line %zu, column %zu\n", outcome, line, column);
    return 0;
}

/* Runs the image over lines. */
static struct answer run(size_t image_length, const uint8_t *lines, size_t length, uint8_t *out, uint64_t budget)
{
    struct answer a;
    a.outcome = flowawk_run(image, image_length, lines, length, out, OUTPUT, work, sizeof work, budget, &a.steps, &a.records, &a.bytes);
    return a;
}

static void say(const char *what, struct answer a)
{
    printf("%s: outcome %" PRIu64 ", %" PRIu64 " records, %" PRIu64 " steps, %" PRIu64 " bytes\n", what, a.outcome, a.records, a.steps, a.bytes);
}

int main(int argc, char **argv)
{
    if (argc != 3) {
        fprintf(stderr, "usage: demo FILTERFILE LINES\n");
        return 2;
    }
    struct bytes filter = file(argv[1]), lines = file(argv[2]);

    /* once for each filter: the image can be kept, or sent elsewhere */
    size_t length = translate(filter);
    if (length == 0)
        return 1;
    printf("image: %zu bytes, check %" PRIu64 "\n", length, flowawk_check(image, length));

    /* for each block of lines */
    struct answer first = run(length, lines.at, lines.length, output, 1000000);
    say("run", first);
    fwrite(output, 1, first.bytes, stdout);

    /* on its own output the filter changes nothing */
    struct answer second = run(length, output, first.bytes, again, 1000000);
    say("again", second);
    int same = second.bytes == first.bytes && memcmp(output, again, first.bytes) == 0;
    printf("%s\n", same ? "the same lines" : "other lines");

    /* a budget that is too small stops the run; what was printed before is there */
    say("budget 50", run(length, lines.at, lines.length, output, 50));

    /* a filter that is refused */
    static uint8_t wrong[] = "$2 > 1000 {\n    print $1,\n}\n";
    translate((struct bytes){wrong, sizeof wrong - 1});
    free(filter.at);
    free(lines.at);
    return same ? 0 : 1;
}
