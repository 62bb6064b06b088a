/*
 * Writes the seed corpus to the folder given: for each start image the calls in turn, then damage of every sort, with
 * the map made right again and not, then full disks, USR files, bits past the last sectors, wrong bits of the map,
 * chains that leave a track and come back, counts and bitmaps, the edges of names, amounts and sizes, and bytes as they
 * stand; and in layouts 1 and 2 the last tracks and the other layout's bytes, and calls in no layout.
 */
#include <stdio.h>
#include <stdlib.h>

#include "d64.h"
#include "operations.h"
#include "oracle.h"
#include "program.h"

/* Start images (oracle/src/starts.rs). */
enum { FEW_FILES = 3, SCATTERED = 5, FULL_DIRECTORY = 11 };

/* Bytes that a store's kind is made of: these give 2 and 3 (decode.c). */
enum kind { PRG = 1, USR = 7 };

enum { TOO_MUCH = 20, MOST_AND_ONE = 25 }; /* of the edges of an amount; the second on a disk of 40 tracks */

static const char *folder;
static FILE *seed;
static unsigned written;
static unsigned layout; /* of the seeds that follow, as their mode has it (program.h) */

static void put(const unsigned char *bytes, size_t len)
{
    if (fwrite(bytes, 1, len, seed) != len) {
        perror("a seed");
        exit(1);
    }
}

#define PUT(...) put((const unsigned char[]){__VA_ARGS__}, sizeof((const unsigned char[]){__VA_ARGS__}))

static void finish(void)
{
    if (seed != NULL && fclose(seed) != 0) {
        perror("a seed");
        exit(1);
    }
}

static void begin_raw(enum mode mode)
{
    char path[4096];
    finish();
    snprintf(path, sizeof path, "%s/%04u", folder, written++);
    seed = fopen(path, "wb");
    if (seed == NULL) {
        perror(path);
        exit(1);
    }
    PUT((unsigned char)(mode | layout << 3));
}

/* A program on a start image, lent against the page behind it. */
static void begin(unsigned start, unsigned size, unsigned place)
{
    begin_raw(PROGRAM);
    PUT((unsigned char)start, (unsigned char)size, (unsigned char)place);
}

/* Calls with memory against the page behind it and a right answer block. */
static void put_read(enum name kind, unsigned char which)
{
    PUT(OP_READ, 0, 0, kind, which, 0, AROUND_NEED, 128, 0);
}

static void put_store_as(enum kind as, enum name kind, unsigned char which, enum amount amount, unsigned char a,
                         unsigned char b)
{
    PUT(OP_STORE, 0, 0, kind, which, 0, as, amount, a, b, which);
}

static void put_store(enum name kind, unsigned char which, enum amount amount, unsigned char a, unsigned char b)
{
    put_store_as(PRG, kind, which, amount, a, b);
}

static void put_scratch(enum name kind, unsigned char which)
{
    PUT(OP_SCRATCH, 0, 0, kind, which, 0);
}

static void put_looks(void)
{
    PUT(OP_CHECK, 2, 0);
    PUT(OP_TELL, 0, 0, 0, 0);
    PUT(OP_TELL, 1, 0, 143, 0);
    PUT(OP_LISTING, 0, 0, 0, AROUND_NEED, 128, 0);
    put_read(OF_FILE, 0);
    put_read(OF_FILE, 1);
    PUT(OP_READ, 1, 0, OF_FILE, 2, 0, AROUND_NEED, 127, 0);
}

static void seeds_of_starts(void)
{
    /* Of layouts 1 and 2 every third. */
    for (unsigned start = layout; start < oracle_starts(); start += layout == 0 ? 1 : 3) {
        begin(start, 0, start % 3);
        put_looks();
        PUT(OP_VERSION, 0x41);
        put_store(FROM_POOL, 0, AS_IS, 44, 1);
        put_scratch(OF_FILE, 1);
        put_store(FROM_POOL, 3, AROUND_NEED, 128, 0);
        put_scratch(FROM_POOL, 3);
        put_scratch(OF_FILE, 0);
        PUT(OP_FORMAT, 0, 0, FROM_POOL, 7, 0, '3', '0');
        put_store(FROM_POOL, 0, AS_IS, 44, 1);
    }
}

/* What is damaged on a disk with files; the calls after it meet the fault, or an odd disk where all is repaired. */
static void seeds_of_damage(void)
{
    static const unsigned char damages[][8] = {
        {OP_BYTE, ON_TRACK_18, 1, 0, 34, 0x82}, {OP_LINK, ON_TRACK_18, 1, 0, TO_TRACK_18, 4, 0},
        {OP_LINK, ON_TRACK_18, 1, 0, TO_TRACK_18, 1, 0}, {OP_LINK, ON_TRACK_18, 1, 0, TO_TRACK_18, 19, 0},
        {OP_LINK, ON_TRACK_18, 1, 0, TO_END, 255, 0}, {OP_LINK, IN_FILE, 0, 0, TO_END, 0, 0},
        {OP_LINK, IN_FILE, 0, 0, TO_END, 1, 0}, {OP_LINK, IN_FILE, 0, 0, TO_FILE, 1, 0},
        {OP_LINK, IN_FILE, 1, 1, TO_FILE, 1, 0}, {OP_LINK, IN_FILE, 1, 0, TO_FILE, 0, 1},
        {OP_LINK, IN_FILE, 0, 0, TO_PLACE, 36, 0}, {OP_LINK, IN_FILE, 0, 0, TO_PLACE, 35, 17},
        {OP_LINK, IN_FILE, 0, 0, TO_PLACE, 35, 16}, {OP_LINK, IN_FILE, 0, 0, TO_TRACK_18, 18, 0},
        {OP_LINK, BY_NUMBER, 170, 2, TO_END, 2, 0}, {OP_SLOT, 0, TYPE, 0x80}, {OP_SLOT, 0, TYPE, 0xC3},
        {OP_SLOT, 0, TYPE, 0}, {OP_SLOT, 0, FIRST_TRACK, 0}, {OP_SLOT, 0, FIRST_SECTOR, 20},
        {OP_SLOT, 0, NAME_BYTE, 0xA0}, {OP_SLOT, 0, NAME_PADDED + 8 * 15, 0}, {OP_SLOT, 0, NAME_BYTE + 8 * 15, 'X'},
        {OP_SLOT, 1, COUNT_LOW, 7}, {OP_SLOT, 1, COUNT_HIGH, 1}, {OP_SLOT, 1, ANY_BYTE + 8 * 20, 5},
        {OP_MAP_ENTRY, 35, 0, 3}, {OP_MAP_ENTRY, 1, 3, 0x3F}, {OP_MAP_BIT, 17, 0}, {OP_MAP_BIT, 17, 128},
        {OP_MAP_BIT, 18, 128 + 18}, {OP_COPY_SLOT, 0, 143}, {OP_COPY_SLOT, 0, 5},
        {OP_COPY_SECTOR, ON_TRACK_18, 1, 0, ON_TRACK_18, 4, 0}, {OP_VERSION, 0x42}, {OP_VERSION, 0},
    };
    for (size_t i = 0; i < sizeof damages / sizeof *damages; i++) {
        for (unsigned char what = 0; what < 4; what++) {
            begin(2 * what + 3, 0, 0);
            put(damages[i], operation_length(damages[i], sizeof damages[i]));
            if (what != 0)
                PUT(OP_REPAIR, what);
            put_looks();
            put_store(FROM_POOL, 0, AS_IS, 44, 1);
            put_scratch(OF_FILE, 0);
        }
    }
}

/* A disk that fills: by one file, by many, and in its directory. */
static void seeds_of_filling(void)
{
    for (unsigned char more = 126; more < 131; more++) {
        begin(0, 0, 0);
        put_store(FROM_POOL, 1, AROUND_NEED, more, 0);
        put_store(FROM_POOL, 2, AS_IS, 0, 0);
        put_read(FROM_POOL, 1);
        put_scratch(FROM_POOL, 1);
    }
    begin(0, 0, 1);
    for (unsigned char file = 0; file < 12; file++)
        put_store(FROM_POOL, file, AT_EDGE, file, 0);
    for (unsigned char file = 0; file < 12; file += 3)
        put_scratch(FROM_POOL, file);
    for (unsigned char file = 0; file < 6; file++)
        put_store(FROM_POOL, file, IN_SECTORS, file, 128);
}

/* Two refusals that apply at once: directory and disk full, the name taken, the version that forbids writing. */
static void seeds_of_orders(void)
{
    static const unsigned char starts[] = {FEW_FILES, FULL_DIRECTORY, FULL_DIRECTORY + 1};
    for (size_t i = 0; i < sizeof starts; i++) {
        begin(starts[i], 0, 0);
        PUT(OP_VERSION, 0x41);
        put_store(FROM_POOL, 5, AT_EDGE, TOO_MUCH, 0);
        put_store(OF_FILE, 0, AT_EDGE, TOO_MUCH, 0);
        PUT(OP_VERSION, 0x42);
        put_store(FROM_POOL, 5, AT_EDGE, TOO_MUCH, 0);
        put_store(OF_FILE, 0, AS_IS, 0, 0);
        put_scratch(FROM_POOL, 5);
    }
}

/* A USR file, locked and not: kind 3 is refused, whatever would refuse it later on; all else is as on other disks. */
static void seeds_of_usr(void)
{
    for (unsigned char locked = 0; locked < 2; locked++) {
        begin(FEW_FILES, 0, 0);
        PUT(OP_VERSION, 0x41);
        PUT(OP_SLOT, 0, TYPE, locked ? 0xC3 : 0x83);
        put_store_as(USR, FROM_POOL, 0, AS_IS, 44, 1);
        put_store_as(USR, OF_FILE, 0, AS_IS, 44, 1);
        put_store_as(USR, FROM_POOL, 0, AT_EDGE, TOO_MUCH, 0);
        PUT(OP_VERSION, 0x42);
        put_store_as(USR, FROM_POOL, 0, AS_IS, 44, 1);
        PUT(OP_VERSION, 0x41);
        put_store(FROM_POOL, 0, AS_IS, 44, 1);
        put_looks();
        put_scratch(OF_FILE, 0);
    }
}

/* Bits past the last sector of tracks of each length: right, then counted. They stay through stores and scratches. */
static void seeds_of_spare(void)
{
    static const unsigned char tracks[] = {2, 17, 18, 24, 25, 30, 31, 35};
    for (unsigned char counted = 0; counted < 2; counted++) {
        begin(0, 0, 0);
        for (size_t i = 0; i < sizeof tracks; i++)
            PUT(OP_MAP_ENTRY, tracks[i], 3, 0xFF);
        if (counted)
            PUT(OP_MAP_ENTRY, 2, 0, 0x18);
        put_looks();
        put_store(FROM_POOL, 0, AS_IS, 44, 1);
        put_store(FROM_POOL, 1, AROUND_NEED, 128, 0);
        put_scratch(FROM_POOL, 1);
        put_scratch(FROM_POOL, 0);
        PUT(OP_FORMAT, 0, 0, FROM_POOL, 7, 0, '3', '0');
    }
}

/*
 * Wrong bits of the map on tracks of each length: the first sector's and the last's alone, then both, then a bit past
 * the last sector besides; the count is as it was, or follows.
 */
static void seeds_of_map_bits(void)
{
    static const unsigned char tracks[][2] = {{1, 20}, {17, 20}, {18, 18}, {24, 18}, {25, 17}, {30, 17}, {31, 16},
                                              {35, 16}};
    for (unsigned char which = 1; which < 8; which++) {
        for (size_t i = 0; i < 2 * (sizeof tracks / sizeof *tracks); i++) {
            unsigned char track = tracks[i / 2][0], last = tracks[i / 2][1], follows = i % 2 ? 128 : 0;
            begin(FEW_FILES, 0, 0);
            if (which & 1)
                PUT(OP_MAP_BIT, track, follows);
            if (which & 2)
                PUT(OP_MAP_BIT, track, (unsigned char)(follows + last));
            if (which & 4)
                PUT(OP_MAP_BIT, track, (unsigned char)(follows + last + 1));
            put_looks();
            put_store(FROM_POOL, 0, AS_IS, 44, 1);
            put_scratch(OF_FILE, 0);
        }
    }
}

/* Leads a file on from its sector with this number, and then ends it; sectors of a formatted disk are zeros. */
static void put_zigzag(unsigned char file, const unsigned char tracks[2], unsigned char from)
{
    for (unsigned char link = 0; link < 8; link++)
        PUT(OP_LINK, IN_FILE, file, link, TO_PLACE, tracks[link % 2], (unsigned char)(from + link / 2));
    PUT(OP_LINK, IN_FILE, file, 8, TO_END, 100, 0);
}

/* Two files that go from one track to another and back; with all repaired, a link that leads back, or off the disk. */
static void seeds_of_chains(void)
{
    static const unsigned char pairs[][2] = {{1, 35}, {35, 1}, {16, 15}, {18, 19}, {1, 18}, {24, 25}, {30, 31}};
    static const unsigned char links[][2] = {{0, 0}, {3, 1}, {5, 36}};
    for (size_t i = 0; i < 3 * (sizeof pairs / sizeof *pairs); i++) {
        const unsigned char *tracks = pairs[i / 3], *link = links[i % 3];
        begin(0, 0, i % 3);
        put_store(FROM_POOL, 0, AS_IS, 44, 0);
        put_store(FROM_POOL, 1, AS_IS, 44, 0);
        put_zigzag(0, tracks, 2);
        put_zigzag(1, tracks, 8);
        PUT(OP_REPAIR, 3);
        if (link[1] != 0)
            PUT(OP_LINK, IN_FILE, 1, link[0], TO_PLACE, link[1] == 1 ? tracks[1] : link[1], 2);
        put_looks();
        put_store(FROM_POOL, 2, AS_IS, 44, 9);
        put_scratch(OF_FILE, 0);
        put_scratch(OF_FILE, 0);
    }
}

/* Gives a track one count after another, each with a check. */
static void put_counts(unsigned char track, const unsigned char *counts, size_t many, unsigned char more)
{
    for (size_t i = 0; i < many; i++) {
        PUT(OP_MAP_ENTRY, track, 0, (unsigned char)(counts[i] + more));
        PUT(OP_CHECK, 2, 0);
    }
}

/* On tracks of each length counts that are off by one, by eights and by more, and those of other numbers of sectors. */
static void seeds_of_counts(void)
{
    static const unsigned char off[] = {1, 255, 8, 248, 16, 24, 32, 224, 64, 128}, any[] = {0, 17, 18, 19, 21, 24, 255};
    static const unsigned char tracks[][2] = {{1, 21}, {17, 21}, {18, 17}, {24, 19}, {25, 18}, {30, 18}, {31, 17},
                                              {35, 17}};
    for (size_t i = 0; i < sizeof tracks / sizeof *tracks; i++) {
        begin(0, 0, 0);
        put_counts(tracks[i][0], off, sizeof off, tracks[i][1]);
        put_store(FROM_POOL, 0, AS_IS, 44, 1);
        begin(SCATTERED, 0, 0);
        put_counts(tracks[i][0], any, sizeof any, 0);
        put_scratch(OF_FILE, 0);
    }
}

/* On such tracks bitmaps with their own counts, on a disk without files. */
static void seeds_of_bitmaps(void)
{
    static const unsigned char bits[][4] = {{8, 255, 0, 0}, {8, 0, 255, 0}, {8, 85, 85, 0}, {8, 170, 170, 0}, {0}};
    static const unsigned char tracks[] = {1, 17, 18, 24, 25, 30, 31, 35};
    for (size_t i = 0; i < sizeof tracks; i++) {
        begin(0, 0, 0);
        for (size_t j = 0; j < sizeof bits / sizeof *bits; j++) {
            for (unsigned char byte = 0; byte < 4; byte++)
                PUT(OP_MAP_ENTRY, tracks[i], byte, bits[j][byte]);
            PUT(OP_CHECK, 2, 0);
            put_scratch(FROM_POOL, 0);
        }
    }
}

/* Names, kinds, answer blocks, positions, outputs and images of sizes at the edges. */
static void seeds_of_edges(void)
{
    for (unsigned char i = 0; i < 16; i++) {
        begin(3 + i, i < 14 ? 240 + i : 0, i);
        PUT(OP_STORE, i, 240 + i, FROM_POOL, i, 0, 1, AS_IS, i, 0, 0);
        PUT(OP_READ, i, 0, WRONG, i, i, AS_IS, 255, 0);
        PUT(OP_STORE, 128, 0, FROM_POOL, i, 0, 200 + i, AS_IS, 0, 0, 0);
        PUT(OP_SCRATCH, i, 0, CHANGED, 0, i);
        PUT(OP_SCRATCH, i, 0, CUT, 0, i);
        PUT(OP_READ, i, 0, LENGTHENED, 0, i, AT_EDGE, 22, 0);
        PUT(OP_READ, i, 0, LITERAL, 2, 0, 'A', i, AT_EDGE, i, 0);
        PUT(OP_TELL, i, 0, 200 + i, 0);
        PUT(OP_TELL, i, 0, i, 240 + i);
        PUT(OP_LISTING, i, 0, 240 + i, AT_EDGE, 13, 0);
        PUT(OP_LISTING, i, 240 + i, 0, AROUND_NEED, 120 + i, 0);
        PUT(OP_FORMAT, i, 0, WRONG, i, 17 * i, 0, 0);
        PUT(OP_FORMAT, i, 0, FROM_POOL, i, 0, i, 0xA0);
    }
}

static void seeds_of_images(void)
{
    static uint8_t image[D64_IMAGE40_BYTES];
    for (unsigned start = 0; start < 24; start += 4) {
        oracle_start(layout, start + 3, image, sizeof image);
        begin_raw(RAW_TRACK18);
        put(image + D64_TRACK18_OFFSET, D64_TRACK18_BYTES);
    }
    size_t len = oracle_start(layout, FEW_FILES, image, sizeof image);
    begin_raw(RAW_IMAGE);
    put(image, len);
}

/* Chains over tracks 36 to 40, with all repaired; links off the disk; the map of these tracks, wrong and right. */
static void seeds_of_last_tracks(void)
{
    static const unsigned char pairs[][2] = {{36, 40}, {40, 36}, {35, 36}, {40, 1}, {18, 40}};
    static const unsigned char links[][2] = {{40, 16}, {40, 17}, {41, 1}, {36, 17}};
    static const unsigned char map[][3] = {{36, 0, 16}, {40, 0, 25}, {38, 0, 9}, {40, 3, 0}, {36, 1, 254}, {40, 3, 255}};
    for (size_t i = 0; i < sizeof pairs / sizeof *pairs * (sizeof links / sizeof *links); i++) {
        const unsigned char *tracks = pairs[i / 4], *link = links[i % 4];
        begin(0, 0, i % 3);
        put_store(FROM_POOL, 0, AS_IS, 44, 0);
        put_zigzag(0, tracks, 2);
        PUT(OP_LINK, IN_FILE, 0, 8, TO_PLACE, link[0], link[1]);
        PUT(OP_LINK, IN_FILE, 0, 9, TO_END, 255, 0);
        PUT(OP_REPAIR, 3);
        put_looks();
        put_scratch(OF_FILE, 0);
    }
    for (size_t i = 0; i < sizeof map / sizeof *map; i++) {
        begin(0, 0, 0);
        PUT(OP_MAP_ENTRY, map[i][0], map[i][1], map[i][2]);
        put_looks();
        put_store(FROM_POOL, 0, AS_IS, 44, 1);
        put_scratch(FROM_POOL, 0);
        PUT(OP_FORMAT, 0, 0, FROM_POOL, 7, 0, '3', '0');
    }
}

/* Bytes that are another layout's entries; a disk that fills and is emptied, and formatted, beside them. */
static void seeds_of_other_entries(void)
{
    begin(0, 0, 0);
    for (unsigned char at = 0xAC; at < 0xD4; at += 5)
        PUT(OP_BYTE, ON_TRACK_18, 0, 0, at, 0x5A);
    PUT(OP_REPAIR, 2);
    put_looks();
    put_store(FROM_POOL, 0, AROUND_NEED, 128, 0);
    put_read(FROM_POOL, 0);
    put_scratch(FROM_POOL, 0);
    PUT(OP_FORMAT, 0, 0, FROM_POOL, 7, 0, '3', '0');
    put_store(FROM_POOL, 1, AT_EDGE, MOST_AND_ONE, 0);
    put_store(FROM_POOL, 1, AT_EDGE, MOST_AND_ONE - 1, 0);
    PUT(OP_CHECK, 2, 0);
}

/* Calls in a layout that is none, on a disk with files and with a block of a wrong size too. */
static void seeds_of_unknown(void)
{
    for (layout = FIRST_UNKNOWN; layout < LAYOUT_NUMBERS; layout++) {
        begin(FEW_FILES, layout % 2 ? 0 : 250, 0);
        put_looks();
        put_store(FROM_POOL, 0, AS_IS, 44, 1);
        put_scratch(OF_FILE, 0);
        PUT(OP_FORMAT, 0, 0, FROM_POOL, 7, 0, '3', '0');
        PUT(OP_FORMAT, 0, 241, FROM_POOL, 7, 0, '3', '0');
        PUT(OP_CHECK, 0, 242);
        PUT(OP_READ, 0, 0, WRONG, 0, 0, AS_IS, 255, 0);
    }
    layout = 0;
}

int main(int argc, char **argv)
{
    if (argc != 2) {
        fprintf(stderr, "usage: seeds FOLDER\n");
        return 64;
    }
    folder = argv[1];
    for (layout = 0; layout < LAYOUTS; layout++) {
        seeds_of_starts();
        seeds_of_filling();
        seeds_of_other_entries();
        seeds_of_images();
        if (layout != 0)
            seeds_of_last_tracks();
    }
    seeds_of_unknown();
    seeds_of_damage();
    seeds_of_orders();
    seeds_of_usr();
    seeds_of_spare();
    seeds_of_map_bits();
    seeds_of_chains();
    seeds_of_counts();
    seeds_of_bitmaps();
    seeds_of_edges();
    finish();
    return 0;
}
