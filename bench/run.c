/*
 * Runs an image over lines, for bench/run.py: run IMAGE LINES OUTPUT. Writes the output, and to standard error the outcome, the steps and the
 * seconds of processor time that the run alone took.
 */
#define _GNU_SOURCE
#include <fcntl.h>
#include <inttypes.h>
#include <stdio.h>
#include <stdlib.h>
#include <sys/mman.h>
#include <sys/stat.h>
#include <time.h>
#include <unistd.h>

#include "flowawk.h"

static uint8_t work[49152];

static const uint8_t *mapped(const char *name, size_t *length)
{
    int file = open(name, O_RDONLY);
    struct stat s;
    if (file < 0 || fstat(file, &s) != 0) {
        perror(name);
        exit(2);
    }
    *length = s.st_size;
    void *at = s.st_size == 0 ? work : mmap(NULL, s.st_size, PROT_READ, MAP_PRIVATE | MAP_POPULATE, file, 0);
    if (at == MAP_FAILED) {
        perror(name);
        exit(2);
    }
    close(file);
    return at;
}

static double seconds(void)
{
    struct timespec t;
    clock_gettime(CLOCK_PROCESS_CPUTIME_ID, &t);
    return t.tv_sec + 1e-9 * t.tv_nsec;
}

static void write_all(const char *name, const uint8_t *from, size_t count)
{
    int file = open(name, O_WRONLY | O_CREAT | O_TRUNC, 0644);
    while (count > 0) {
        ssize_t written = write(file, from, count);
        if (written <= 0) {
            perror(name);
            exit(2);
        }
        from += written;
        count -= written;
    }
    close(file);
}

int main(int count, char **words)
{
    if (count != 4)
        return 2;
    size_t n, m;
    const uint8_t *image = mapped(words[1], &n), *lines = mapped(words[2], &m);
    size_t room = 2 * m + 4096;
    uint8_t *output = mmap(NULL, room, PROT_READ | PROT_WRITE, MAP_PRIVATE | MAP_ANONYMOUS | MAP_NORESERVE, -1, 0);
    /* large pages, where the system has them: the room is written once, from front to back */
    madvise(output, room, MADV_HUGEPAGE);
    uint64_t steps, records, bytes;
    double start = seconds();
    uint64_t outcome = flowawk_run(image, n, lines, m, output, room, work, sizeof work, UINT64_MAX, &steps, &records, &bytes);
    double took = seconds() - start;
    write_all(words[3], output, bytes);
    fprintf(stderr, "%" PRIu64 " %" PRIu64 " %.6f\n", outcome, steps, took);
    return 0;
}
