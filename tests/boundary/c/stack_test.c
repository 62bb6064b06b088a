/*
 * No call uses more than 16 KiB of stack besides what it is lent. Each runs on a stack of its own that is painted
 * first; the paint that is left tells how deep it went. What an empty call takes there is not counted.
 */
#include "by_hand.h"

#include <stdio.h>
#include <ucontext.h>

#define LIMIT (16 * 1024)
#define PAINT 0xA5

static uint8_t image[IMAGE_BYTES];
static uint8_t before[IMAGE_BYTES];
static uint8_t out[IMAGE_BYTES];
static uint8_t data[254 * ROOM + 1];
static uint8_t block[D64_BLOCK_BYTES];
static uint8_t stack[512 * 1024];
static const char *name;
static size_t position;
static size_t length; /* of the data to store */

static void nothing(void)
{
}

static void check(void)
{
    d64_check(LAYOUT, image, sizeof image, block, sizeof block);
}

static void format(void)
{
    d64_format(LAYOUT, image, sizeof image, (const uint8_t *)name, strlen(name), 0x30, 0x31, block, sizeof block);
}

static void read_file(void)
{
    d64_read(LAYOUT, image, sizeof image, (const uint8_t *)name, strlen(name), out, sizeof out, block, sizeof block);
}

static void store(void)
{
    d64_store(LAYOUT, image, sizeof image, (const uint8_t *)"NEW", 3, 2, data, length, block, sizeof block);
}

static void scratch(void)
{
    d64_scratch(LAYOUT, image, sizeof image, (const uint8_t *)name, strlen(name), block, sizeof block);
}

static void tell(void)
{
    d64_tell(LAYOUT, image, sizeof image, position, out, sizeof out, block, sizeof block);
}

static void list(void)
{
    d64_listing(LAYOUT, image + D64_TRACK18_OFFSET, D64_TRACK18_BYTES, out, sizeof out, block, sizeof block);
}

static struct {
    const char *name;
    void (*run)(void);
    size_t most;
} calls[] = {{"check", check, 0},     {"format", format, 0}, {"read", read_file, 0}, {"store", store, 0},
             {"scratch", scratch, 0}, {"tell", tell, 0},     {"listing", list, 0}};

enum { CALLS = sizeof calls / sizeof calls[0] };

/* The bytes of the painted stack that a call wrote, from the top down to the last. */
static size_t depth_of(void (*call)(void))
{
    static ucontext_t here, there;
    size_t left = 0;
    memset(stack, PAINT, sizeof stack);
    getcontext(&there);
    there.uc_stack.ss_sp = stack;
    there.uc_stack.ss_size = sizeof stack;
    there.uc_link = &here;
    makecontext(&there, call, 0);
    swapcontext(&here, &there);
    while (left < sizeof stack && stack[left] == PAINT)
        left++;
    return sizeof stack - left;
}

/* Measures every call on the image as it is. */
static void measure(const char *file, size_t at, size_t data_len)
{
    name = file;
    position = at;
    length = data_len;
    memcpy(before, image, sizeof image);
    for (int i = 0; i < CALLS; i++) {
        size_t depth = depth_of(calls[i].run);
        if (depth > calls[i].most)
            calls[i].most = depth;
        memcpy(image, before, sizeof image);
    }
}

static void measure_on_many_disks(void)
{
    struct hand hand = {17, 0, 0};
    format_by_hand(image, "EMPTY", 0x30, 0x31);
    measure("NONE", 0, 0);
    measure("NONE", 0, MOST_BYTES);
    measure("NONE", 0, MOST_BYTES + 1);
    add_files(image, &hand, 8, 600); /* the directory grows */
    measure("F000", 0, 5000);
    add_files(image, &hand, 143, 600);
    measure("F142", 142, 5000);
    add_files(image, &hand, 144, 600);
    measure("F143", 143, 5000);
    measure("THIS NAME IS TOO LONG", 144, 0);
    set_link(image, 1, 0, 17, 0);
    measure("F000", 0, 0);
    set_link(image, 18, 18, 18, 1);
    measure("F000", 0, 0);
    hand.track = 17;
    hand.sector = hand.slot = 0;
    format_by_hand(image, "FULL", 0x30, 0x31);
    add_file(image, &hand, 0x82, "ALL", MOST_BYTES);
    measure("ALL", 0, 0);
    memset(image, 0xFF, sizeof image);
    measure("ALL", 0, 0);
}

int main(void)
{
    size_t empty = depth_of(nothing);
    int status = 0;
    measure_on_many_disks();
    printf("stack_test: limit %d bytes", LIMIT);
    for (int i = 0; i < CALLS; i++) {
        size_t used = calls[i].most > empty ? calls[i].most - empty : 0;
        printf(", %s %zu", calls[i].name, used);
        if (used > LIMIT)
            status = 1;
    }
    printf("%s\n", status ? ": over the limit" : "");
    return status;
}
