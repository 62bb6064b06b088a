/*
 * How long the calls of two archives take, in one process: bench/two links both, with all names prefixed by old_ and
 * new_. Each row takes both in turn, in short batches, and prints the medians in nanoseconds and their ratio.
 */
#define _POSIX_C_SOURCE 199309L
#include "d64.h"
#include <stdio.h>
#include <stdlib.h>
#include <string.h>
#include <time.h>

#define MOST_ROUNDS 100001

/* The calls of one archive. */
struct library {
    uint32_t (*check)(uint32_t, const uint8_t *, size_t, uint8_t *, size_t);
    uint32_t (*format)(uint32_t, uint8_t *, size_t, const uint8_t *, size_t, uint8_t, uint8_t, uint8_t *, size_t);
    uint32_t (*store)(uint32_t, uint8_t *, size_t, const uint8_t *, size_t, uint32_t, const uint8_t *, size_t, uint8_t *, size_t);
    uint32_t (*scratch)(uint32_t, uint8_t *, size_t, const uint8_t *, size_t, uint8_t *, size_t);
    uint32_t (*listing)(uint32_t, const uint8_t *, size_t, uint8_t *, size_t, uint8_t *, size_t);
};

#define DECLARE(prefix)                                                                                               \
    uint32_t prefix##d64_check(uint32_t, const uint8_t *, size_t, uint8_t *, size_t);                                           \
    uint32_t prefix##d64_format(uint32_t, uint8_t *, size_t, const uint8_t *, size_t, uint8_t, uint8_t, uint8_t *, size_t);     \
    uint32_t prefix##d64_store(uint32_t, uint8_t *, size_t, const uint8_t *, size_t, uint32_t, const uint8_t *, size_t,         \
                               uint8_t *, size_t);                                                                    \
    uint32_t prefix##d64_scratch(uint32_t, uint8_t *, size_t, const uint8_t *, size_t, uint8_t *, size_t);                       \
    uint32_t prefix##d64_listing(uint32_t, const uint8_t *, size_t, uint8_t *, size_t, uint8_t *, size_t)
DECLARE(old_);
DECLARE(new_);

static const struct library libraries[2] = {
    {old_d64_check, old_d64_format, old_d64_store, old_d64_scratch, old_d64_listing},
    {new_d64_check, new_d64_format, new_d64_store, new_d64_scratch, new_d64_listing},
};

/* The disks, as many of each as a batch of stores needs. */
#define COPIES 4
static uint8_t disks[COPIES][D64_IMAGE40_BYTES], other[D64_IMAGE40_BYTES], data[190246], block[D64_BLOCK_BYTES];
static uint32_t layout;
static size_t image_bytes = D64_IMAGE_BYTES; /* of the layout */
static double taken[2][MOST_ROUNDS], taken_back[2][MOST_ROUNDS];
static size_t rounds;

static double now(void)
{
    struct timespec time;
    clock_gettime(CLOCK_MONOTONIC, &time);
    return (double)time.tv_sec * 1e9 + (double)time.tv_nsec;
}

static int order(const void *a, const void *b)
{
    double x = *(const double *)a, y = *(const double *)b;
    return (x > y) - (x < y);
}

static double median(double *times)
{
    qsort(times, rounds, sizeof *times, order);
    return times[rounds / 2];
}

static void row(const char *name, double times[2][MOST_ROUNDS])
{
    double before = median(times[0]), after = median(times[1]);
    printf("%-42s %8.0f %8.0f %7.3f\n", name, before, after, after / before);
}

static void must(uint32_t answer)
{
    if (answer != D64_DONE) {
        fprintf(stderr, "bench/two: a call answered %u\n", answer);
        exit(1);
    }
}

/* A disk with as many files of so many bytes: each copy of it. */
static void make_disk(int files, size_t bytes)
{
    must(libraries[0].format(layout, disks[0], image_bytes, (const uint8_t *)"BENCH", 5, '0', '1', block, sizeof block));
    for (int i = 1; i <= files; i++) {
        char name[17];
        int length = snprintf(name, sizeof name, "FILE %03d", i);
        must(libraries[0].store(layout, disks[0], image_bytes, (const uint8_t *)name, (size_t)length, 2, data, bytes, block,
                                sizeof block));
    }
    for (int i = 1; i < COPIES; i++)
        memcpy(disks[i], disks[0], image_bytes);
}

static void time_check(const char *name, int files, size_t bytes, int batch)
{
    make_disk(files, bytes);
    for (size_t round = 0; round < rounds; round++)
        for (size_t turn = 0; turn < 2; turn++) {
            size_t which = (round + turn) % 2;
            double start = now();
            for (int i = 0; i < batch; i++)
                must(libraries[which].check(layout, disks[0], image_bytes, block, sizeof block));
            taken[which][round] = (now() - start) / batch;
        }
    row(name, taken);
}

static void time_listing(const char *name, int files, size_t bytes, int batch)
{
    static uint8_t text[D64_LISTING_BYTES];
    const uint8_t *track18 = disks[0] + D64_TRACK18_OFFSET;
    make_disk(files, bytes);
    for (size_t round = 0; round < rounds; round++)
        for (size_t turn = 0; turn < 2; turn++) {
            size_t which = (round + turn) % 2;
            double start = now();
            for (int i = 0; i < batch; i++)
                must(libraries[which].listing(layout, track18, D64_TRACK18_BYTES, text, sizeof text, block, sizeof block));
            taken[which][round] = (now() - start) / batch;
        }
    row(name, taken);
}

/* A store and the scratch of the same file, which makes room for it again. */
static void time_store(const char *store, const char *scratch, int files, size_t bytes, size_t stored)
{
    make_disk(files, bytes);
    for (size_t round = 0; round < rounds; round++)
        for (size_t turn = 0; turn < 2; turn++) {
            size_t which = (round + turn) % 2;
            const struct library *library = &libraries[which];
            double start = now();
            for (int i = 0; i < COPIES; i++)
                must(library->store(layout, disks[i], image_bytes, (const uint8_t *)"NEW", 3, 1, data, stored, block,
                                    sizeof block));
            double middle = now();
            for (int i = 0; i < COPIES; i++)
                must(library->scratch(layout, disks[i], image_bytes, (const uint8_t *)"NEW", 3, block, sizeof block));
            taken[which][round] = (middle - start) / COPIES;
            taken_back[which][round] = (now() - middle) / COPIES;
        }
    row(store, taken);
    row(scratch, taken_back);
}

static void time_copy(void)
{
    for (size_t round = 0; round < rounds; round++) {
        double start = now();
        memcpy(other, disks[round % COPIES], D64_IMAGE_BYTES);
        __asm__ volatile("" : : "r"(other) : "memory");
        taken[0][round] = now() - start;
    }
    printf("%-42s %8.0f\n", "copy of 174,848 bytes", median(taken[0]));
}

/* The rows of one layout; a file of 'most' bytes fills a disk. */
static void time_layout(uint32_t number, size_t bytes, size_t most)
{
    layout = number;
    image_bytes = bytes;
    printf("layout %u\n", (unsigned)number);
    time_check("check, empty disk", 0, 0, 200);
    time_check("check, one file of 5,000 bytes", 1, 5000, 200);
    time_check("check, 144 files", 144, 200, 40);
    time_check("check, 144 files of two sectors", 144, 300, 40);
    time_check("check, full disk", 1, most, 30);
    time_listing("listing, empty disk", 0, 0, 200);
    time_listing("listing, 144 files", 144, 200, 40);
    time_store("store of 5,000 bytes, empty disk", "scratch of 5,000 bytes, no other file", 0, 0, 5000);
    time_store("store of 5,000 bytes, 143 files", "scratch of 5,000 bytes, 143 other files", 143, 200, 5000);
}

/* The second argument is 0 where an archive has no other layouts than that. */
int main(int count, char **arguments)
{
    rounds = count > 1 ? strtoul(arguments[1], NULL, 10) : 1001;
    if (rounds < 1 || MOST_ROUNDS < rounds)
        return 64;
    for (size_t i = 0; i < sizeof data; i++)
        data[i] = (uint8_t)(i * 7 + i / 256);
    printf("%-42s %8s %8s %7s\n", "ns", "old", "new", "ratio");
    time_copy();
    time_layout(D64_LAYOUT_35, D64_IMAGE_BYTES, 168656);
    if (count > 2 && strcmp(arguments[2], "0") != 0) {
        time_layout(D64_LAYOUT_SPEEDDOS, D64_IMAGE40_BYTES, 190246);
        time_layout(D64_LAYOUT_DOLPHIN, D64_IMAGE40_BYTES, 190246);
    }
    return 0;
}
