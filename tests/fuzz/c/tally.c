#include "tally.h"

#include <stdio.h>
#include <stdlib.h>

/*
 * The numbers 0 to 17, and 8 with sector 255, where only a count is wrong: 8 itself is with a sector. Then, of the calls
 * that were done, those in layout 1 and those in layout 2; and 8 on a track that only these have.
 */
enum { EIGHT_WITH_255 = 18, DONE_IN_1, DONE_IN_2, EIGHT_IN_1, EIGHT_IN_2, ANSWERS };
#define BIT(number) (1u << (number))
#define UP_TO(number) (BIT((number) + 1) - 1)

const char *const call_names[CALLS] = {"check", "format", "read", "store", "scratch", "tell", "listing"};

/* "Returns" of d64.h, call by call. */
#define EVERY (BIT(0) | BIT(1) | BIT(16) | BIT(17) | BIT(DONE_IN_1) | BIT(DONE_IN_2))
#define CHECKED (EVERY | UP_TO(8) | BIT(EIGHT_WITH_255) | BIT(EIGHT_IN_1) | BIT(EIGHT_IN_2))
static const uint32_t named[CALLS] = {
    [CHECK] = CHECKED,
    [FORMAT] = EVERY | BIT(9),
    [READ] = CHECKED | BIT(9) | BIT(13),
    [STORE] = CHECKED | BIT(9) | BIT(10) | BIT(11) | BIT(12) | BIT(14) | BIT(15),
    [SCRATCH] = CHECKED | BIT(9) | BIT(11) | BIT(13),
    [TELL] = CHECKED | BIT(13),
    [LISTING] = EVERY | UP_TO(6),
};
static uint64_t met[CALLS][ANSWERS];
static bool also_met[CALLS][ANSWERS]; /* those behind EIGHT_WITH_255, which are counted under their numbers */

static bool was_met(int call, unsigned answer)
{
    return met[call][answer] != 0 || also_met[call][answer];
}

bool tally(enum call call, uint32_t layout, uint32_t number, const uint8_t *answer)
{
    if (number > D64_UNKNOWN_LAYOUT || (named[call] & BIT(number)) == 0)
        return false;
    bool eight = number == D64_WRONG_MAP;
    met[call][eight && answer[1] == 255 ? EIGHT_WITH_255 : number]++;
    if (number == D64_DONE && layout != D64_LAYOUT_35)
        also_met[call][layout == D64_LAYOUT_SPEEDDOS ? DONE_IN_1 : DONE_IN_2] = true;
    if (eight && answer[0] > 35)
        also_met[call][layout == D64_LAYOUT_SPEEDDOS ? EIGHT_IN_1 : EIGHT_IN_2] = true;
    return true;
}

/*
 * Shapes in which a count of free sectors goes wrong: accepted disks with a chain that comes back to a track, to track
 * 18, or goes from track 35 to track 1; and a count that alone is wrong, by a multiple of eight. And where tracks are
 * missed: a chain from track 35 to 36, one back from track 40, one that ends in 40/16.
 */
enum shape { COMES_BACK, BACK_TO_18, FROM_35_TO_1, FROM_35_TO_36, BACK_FROM_40, ENDS_ON_40, OFF_BY_EIGHTS, SHAPES };
static const char *const shape_names[SHAPES] = {
    "a chain that comes back to a track", "a chain that comes back to track 18", "a chain from track 35 to track 1",
    "a chain from track 35 to track 36", "a chain from track 40 to another", "a chain that ends in 40/16",
    "a count off by a multiple of eight",
};
static bool shape_met[SHAPES];

static void follow_chain(const struct disk *disk, const uint8_t *link)
{
    uint64_t left = 0; /* the tracks that the chain has left */
    while (link[0] != 0) {
        const uint8_t *next = disk->owed + SECTOR_BYTES * sector_number(disk->layout, link[0], link[1]);
        if (next[0] != 0 && next[0] != link[0]) {
            left |= (uint64_t)1 << link[0];
            shape_met[FROM_35_TO_1] |= link[0] == 35 && next[0] == 1;
            shape_met[FROM_35_TO_36] |= link[0] == 35 && next[0] == 36;
            shape_met[BACK_FROM_40] |= link[0] == 40;
            shape_met[COMES_BACK] |= left >> next[0] & 1;
            shape_met[BACK_TO_18] |= next[0] == 18 && left >> 18 & 1;
        }
        shape_met[ENDS_ON_40] |= next[0] == 0 && link[0] == 40 && link[1] == 16;
        link = next;
    }
}

static void follow_chains(const struct disk *disk)
{
    const uint8_t *track18 = disk->owed + D64_TRACK18_OFFSET, *sector = track18 + SECTOR_BYTES;
    for (;; sector = track18 + SECTOR_BYTES * (size_t)sector[1]) {
        for (size_t slot = 0; slot < SECTOR_BYTES; slot += 32)
            if (sector[slot + 2] != 0)
                follow_chain(disk, sector + slot + 3);
        if (sector[0] == 0)
            return;
    }
}

void tally_disk(const struct disk *disk, uint32_t number, const uint8_t *answer)
{
    bool chains = true;
    for (int shape = 0; shape < OFF_BY_EIGHTS; shape++)
        chains = chains && shape_met[shape];
    if (number == D64_DONE && !chains)
        follow_chains(disk);
    if (number == D64_WRONG_MAP && answer[1] == 255) {
        const uint8_t *entry = disk->owed + map_entry_offset(disk->layout, answer[0]);
        int last = answer[0] < 18 ? 0x1F : answer[0] < 25 ? 7 : answer[0] < 31 ? 3 : 1;
        int ones = __builtin_popcount(entry[1]) + __builtin_popcount(entry[2]) + __builtin_popcount(entry[3] & last);
        shape_met[OFF_BY_EIGHTS] |= (entry[0] - ones) % 8 == 0;
    }
}

static void print_never_met(int call, unsigned answer)
{
    static const char *const other[] = {
        "answered by 8 with 255", "done in layout 1", "done in layout 2", "answered by 8 on track 36 to 40 in layout 1",
        "answered by 8 on track 36 to 40 in layout 2",
    };
    if (answer >= EIGHT_WITH_255)
        fprintf(stderr, "never met: %s %s\n", call_names[call], other[answer - EIGHT_WITH_255]);
    else
        fprintf(stderr, "never met: %s answered by %u%s\n", call_names[call], answer,
                answer == D64_WRONG_MAP ? " with a sector" : "");
}

/* One line for tests/fuzz/run; the shapes and answers that were never met follow it. */
static void print_tally(void)
{
    uint64_t calls = 0;
    unsigned all = 0, seen = 0;
    for (int call = 0; call < CALLS; call++) {
        for (unsigned number = 0; number < ANSWERS; number++) {
            all += (named[call] & BIT(number)) != 0;
            seen += was_met(call, number);
            calls += met[call][number];
        }
    }
    fprintf(stderr, "tally: %llu calls, %u of %u answers met\n", (unsigned long long)calls, seen, all);
    for (int shape = 0; shape < SHAPES; shape++)
        if (!shape_met[shape])
            fprintf(stderr, "never met: %s\n", shape_names[shape]);
    for (int call = 0; call < CALLS; call++)
        for (unsigned number = 0; number < ANSWERS; number++)
            if ((named[call] & BIT(number)) != 0 && !was_met(call, number))
                print_never_met(call, number);
}

void tally_at_exit(void)
{
    atexit(print_tally);
}
