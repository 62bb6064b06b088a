/* What the tests in C of format, store and scratch share: data, the disk wanted, and the calls. */
#ifndef CHANGING_H
#define CHANGING_H

#include "expect.h"

#define MOST MOST_BYTES /* bytes that a fresh disk takes */

static uint8_t wanted[IMAGE_BYTES]; /* the disk written by hand */
static uint8_t data[MOST + 1];

static uint32_t format(const char *name, int id1, int id2)
{
    return d64_format(LAYOUT, image, sizeof image, (const uint8_t *)name, strlen(name), (uint8_t)id1, (uint8_t)id2, block,
                      sizeof block);
}

static uint32_t store(const char *name, uint32_t kind, size_t length)
{
    return d64_store(LAYOUT, image, sizeof image, (const uint8_t *)name, strlen(name), kind, data, length, block, sizeof block);
}

static uint32_t scratch(const char *name)
{
    return d64_scratch(LAYOUT, image, sizeof image, (const uint8_t *)name, strlen(name), block, sizeof block);
}

/* The image is as 'other', byte for byte. */
static void expect_image(const uint8_t *other, int line)
{
    for (size_t i = 0; i < sizeof image; i++)
        if (image[i] != other[i]) {
            printf("sector %zu, byte %zu: ", i / SECTOR_BYTES, i % SECTOR_BYTES);
            expect(image[i], other[i], "a byte of the image", __FILE__, line);
        }
    tests++;
}

#define EXPECT_WANTED() expect_image(wanted, __LINE__)

/* Compares the number of a call that is refused without a place, and that it changes nothing. */
#define EXPECT_REFUSED(call, number)          \
    do {                                      \
        memcpy(before, image, sizeof image);  \
        EXPECT(call, number);                 \
        EXPECT_NOWHERE();                     \
        expect_image(before, __LINE__);       \
    } while (0)

/* The bytes of the files written by hand. */
static void fill_data(void)
{
    for (size_t i = 0; i < sizeof data; i++)
        data[i] = file_byte(i);
}

#endif
