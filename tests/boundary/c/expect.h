/* What the tests in C that look at answers share: lent memory, comparisons that end the program, calls on the image. */
#ifndef EXPECT_H
#define EXPECT_H

#include "by_hand.h"

#include <stdio.h>
#include <stdlib.h>

static uint8_t image[IMAGE_BYTES];
static uint8_t before[IMAGE_BYTES];
static uint8_t out[IMAGE_BYTES];
static uint8_t block[D64_BLOCK_BYTES];
static int tests;

static void expect(long actual, long wanted, const char *what, const char *file, int line)
{
    tests++;
    if (actual == wanted)
        return;
    printf("%s:%d: %s is %ld, not %ld\n", file, line, what, actual, wanted);
    exit(1);
}

#define EXPECT(actual, wanted) expect((long)(actual), (long)(wanted), #actual, __FILE__, __LINE__)

static void expect_block(int track, int sector, int slot, long length, int sectors, const char *file, int line)
{
    expect(block[0], track, "the track", file, line);
    expect(block[1], sector, "the sector", file, line);
    expect(block[2], slot, "the slot", file, line);
    expect(block[3] + 256L * block[4] + 65536L * block[5] + 16777216L * block[6], length, "the length", file, line);
    expect(block[7] + 256 * block[8], sectors, "the number of sectors", file, line);
    memset(block, 0x55, sizeof block);
}

#define EXPECT_BLOCK(track, sector, slot, length, sectors) \
    expect_block(track, sector, slot, length, sectors, __FILE__, __LINE__)
#define EXPECT_NOWHERE() EXPECT_BLOCK(0, 0, 255, 0, 0)

static uint32_t check(void)
{
    return d64_check(LAYOUT, image, sizeof image, block, sizeof block);
}

static uint32_t read_file(const char *name, size_t out_len)
{
    return d64_read(LAYOUT, image, sizeof image, (const uint8_t *)name, strlen(name), out, out_len, block, sizeof block);
}

static uint32_t list(size_t text_len)
{
    return d64_listing(LAYOUT, image + D64_TRACK18_OFFSET, D64_TRACK18_BYTES, out, text_len, block, sizeof block);
}

#endif
