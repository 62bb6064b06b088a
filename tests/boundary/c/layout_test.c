/*
 * Layouts 1 and 2 of d64.h (document 02, 8): disks of 40 tracks written by hand, where their map entries stand, what
 * another layout's bytes and sizes are worth, and numbers that are no layout. Built for each of the two by -DLAYOUT.
 * Ends with status 1 at the first difference. Compiled as C11 and as C++.
 */
#include "changing.h"

#define OTHER (LAYOUT == D64_LAYOUT_SPEEDDOS ? D64_LAYOUT_DOLPHIN : D64_LAYOUT_SPEEDDOS)
#define OTHER_ENTRIES (LAYOUT == D64_LAYOUT_SPEEDDOS ? 0xAC : 0xC0)
#define EXTRA 20 /* bytes of five entries */

static const uint8_t name[] = {'C', 'O', 'D', 'E'};

/* --- Bytes of 18/0 ------------------------------------------------------------------------------------------------ */

#define OF_21 "\x15\xFF\xFF\x1F"
#define OF_19 "\x13\xFF\xFF\x07"
#define OF_18 "\x12\xFF\xFF\x03"
#define OF_17 "\x11\xFF\xFF\x01"
#define ZEROS "\0\0\0\0\0\0\0\0\0\0\0\0\0\0\0\0\0\0\0\0"
#define FIVE OF_17 OF_17 OF_17 OF_17 OF_17

/* A fresh disk CODES with id 01, from 00 to AB, and then the bytes from AC on of each layout. */
static const char fresh_map[] = "\x12\x01\x41\0" OF_21 OF_21 OF_21 OF_21 OF_21 OF_21 OF_21 OF_21 OF_21 OF_21 OF_21 OF_21
    OF_21 OF_21 OF_21 OF_21 OF_21 "\x11\xFC\xFF\x07" OF_19 OF_19 OF_19 OF_19 OF_19 OF_19 OF_18 OF_18 OF_18 OF_18 OF_18
    OF_18 FIVE "CODES\xA0\xA0\xA0\xA0\xA0\xA0\xA0\xA0\xA0\xA0\xA0\xA0\xA0" "01\xA0" "2A\xA0\xA0\xA0\xA0\0";
static const char speeddos_map[] = ZEROS FIVE;
static const char dolphin_map[] = FIVE ZEROS;

static void a_fresh_map(void)
{
    const uint8_t *map = sector_at(image, 18, 0);
    const char *end = LAYOUT == D64_LAYOUT_SPEEDDOS ? speeddos_map : dolphin_map;
    EXPECT(sizeof fresh_map - 1, 0xAC);
    memset(image, 0xEE, sizeof image);
    EXPECT(format("CODES", 0x30, 0x31), D64_DONE);
    EXPECT_NOWHERE();
    for (int i = 0; i < 0xAC; i++)
        EXPECT(map[i], (uint8_t)fresh_map[i]);
    for (int i = 0xAC; i < 0xAC + 2 * EXTRA; i++)
        EXPECT(map[i], (uint8_t)end[i - 0xAC]);
    for (int i = 0xAC + 2 * EXTRA; i < SECTOR_BYTES; i++)
        EXPECT(map[i], 0);
    format_by_hand(wanted, "CODES", 0x30, 0x31);
    EXPECT_WANTED();
    EXPECT(check(), D64_DONE);
    EXPECT_NOWHERE();
}

/* --- Sizes and numbers of layouts ---------------------------------------------------------------------------------- */

/* Every call with a layout, an image and a track 18 of these lengths gives the number, and changes nothing. */
static void all_give(uint32_t layout, size_t image_len, size_t track18_len, uint32_t number)
{
    memset(out, 0xEE, sizeof out);
    EXPECT_REFUSED(d64_check(layout, image, image_len, block, sizeof block), number);
    EXPECT_REFUSED(d64_format(layout, image, image_len, NULL, 0, 1, 2, block, sizeof block), number);
    EXPECT_REFUSED(d64_format(layout, image, image_len, name, 4, 1, 2, block, sizeof block), number);
    EXPECT_REFUSED(d64_read(layout, image, image_len, NULL, 0, out, sizeof out, block, sizeof block), number);
    EXPECT_REFUSED(d64_read(layout, image, image_len, name, 4, out, sizeof out, block, sizeof block), number);
    EXPECT_REFUSED(d64_store(layout, image, image_len, NULL, 0, 9, data, 300, block, sizeof block), number);
    EXPECT_REFUSED(d64_store(layout, image, image_len, (const uint8_t *)"NEW", 3, 2, data, 300, block, sizeof block), number);
    EXPECT_REFUSED(d64_scratch(layout, image, image_len, NULL, 0, block, sizeof block), number);
    EXPECT_REFUSED(d64_scratch(layout, image, image_len, name, 4, block, sizeof block), number);
    EXPECT_REFUSED(d64_tell(layout, image, image_len, 0, out, 0, block, sizeof block), number);
    EXPECT_REFUSED(d64_tell(layout, image, image_len, 0, out, sizeof out, block, sizeof block), number);
    EXPECT_REFUSED(d64_listing(layout, image + D64_TRACK18_OFFSET, track18_len, out, sizeof out, block, sizeof block), number);
    for (size_t i = 0; i < sizeof out; i++)
        expect(out[i], 0xEE, "a byte of the output", __FILE__, __LINE__);
}

/* With an answer block of another size than nine, 16 comes before the layout. */
static void all_are_short(uint32_t layout)
{
    static const size_t sizes[] = {0, 8, 10};
    uint8_t wide[10];
    memcpy(before, image, sizeof image);
    memset(wide, 0x55, sizeof wide);
    for (size_t i = 0; i < sizeof sizes / sizeof sizes[0]; i++) {
        EXPECT(d64_check(layout, image, sizeof image, wide, sizes[i]), D64_SHORT);
        EXPECT(d64_format(layout, image, sizeof image, name, 4, 1, 2, wide, sizes[i]), D64_SHORT);
        EXPECT(d64_read(layout, image, sizeof image, name, 4, out, sizeof out, wide, sizes[i]), D64_SHORT);
        EXPECT(d64_store(layout, image, sizeof image, name, 3, 2, data, 300, wide, sizes[i]), D64_SHORT);
        EXPECT(d64_scratch(layout, image, sizeof image, name, 4, wide, sizes[i]), D64_SHORT);
        EXPECT(d64_tell(layout, image, sizeof image, 0, out, sizeof out, wide, sizes[i]), D64_SHORT);
        EXPECT(d64_listing(layout, image + D64_TRACK18_OFFSET, D64_TRACK18_BYTES, out, sizeof out, wide, sizes[i]), D64_SHORT);
    }
    for (size_t i = 0; i < sizeof wide; i++)
        EXPECT(wide[i], 0x55);
    expect_image(before, __LINE__);
}

/* CODE, 300 bytes, on a fresh disk. */
static void code_disk(void)
{
    struct hand hand = {17, 0, 0};
    format_by_hand(image, "CODES", 0x30, 0x31);
    add_file(image, &hand, 0x82, "CODE", 300);
}

static void unknown_layouts(void)
{
    static const uint32_t unknown[] = {3, 4, 35, 40, 255, 256, 257, 258, 0x10000, 0x80000001, 0xFFFFFFFE, 0xFFFFFFFF};
    code_disk();
    for (size_t i = 0; i < sizeof unknown / sizeof unknown[0]; i++) {
        all_give(unknown[i], sizeof image, D64_TRACK18_BYTES, D64_UNKNOWN_LAYOUT);
        all_give(unknown[i], D64_IMAGE_BYTES, 0, D64_UNKNOWN_LAYOUT);
        all_give(unknown[i], 0, 1, D64_UNKNOWN_LAYOUT);
        all_are_short(unknown[i]);
        EXPECT(d64_check(unknown[i], NULL, 0, block, sizeof block), D64_UNKNOWN_LAYOUT);
        EXPECT_NOWHERE();
    }
    set_link(image, 17, 0, 41, 1);
    all_give(3, sizeof image, D64_TRACK18_BYTES, D64_UNKNOWN_LAYOUT);
    EXPECT(check(), D64_BAD_LINK);
    EXPECT_BLOCK(17, 0, 0, 0, 0);
}

/* An image of another size; track 18 is as long in each layout. */
static void sizes_of_others(void)
{
    static const size_t sizes[] = {0, 256, 4864, 174847, 174848, 174849, 175104, 196352, 196607};
    code_disk();
    for (size_t i = 0; i < sizeof sizes / sizeof sizes[0]; i++)
        all_give(LAYOUT, sizes[i], D64_TRACK18_BYTES - 1, D64_WRONG_SIZE);
    all_give(LAYOUT, 174848, D64_TRACK18_BYTES + 1, D64_WRONG_SIZE);
    all_give(D64_LAYOUT_35, sizeof image, D64_TRACK18_BYTES + 1, D64_WRONG_SIZE);
    all_give(D64_LAYOUT_35, 174849, 0, D64_WRONG_SIZE);
    EXPECT(check(), D64_DONE);
    EXPECT_NOWHERE();
    EXPECT(d64_check(D64_LAYOUT_35, image, D64_IMAGE_BYTES, block, sizeof block), D64_DONE); /* the first 35 tracks */
    EXPECT_NOWHERE();
}

/* --- The map entries of tracks 36 to 40 ---------------------------------------------------------------------------- */

static void expect_eight(int track, int sector, int line)
{
    expect(check(), D64_WRONG_MAP, "check()", __FILE__, line);
    expect_block(track, sector, 255, 0, 0, __FILE__, line);
}

static void wrong_entries(void)
{
    code_disk();
    for (int track = 36; track <= 40; track++) {
        uint8_t *entry = sector_at(image, 18, 0) + EXTRA_ENTRIES + 4 * (track - 36);
        for (int bit = 0; bit < 24; bit++) {
            entry[1 + bit / 8] ^= (uint8_t)(1 << bit % 8);
            if (bit < 17)
                expect_eight(track, bit, __LINE__);
            else
                EXPECT(check(), D64_DONE); /* past the last sector */
            entry[1 + bit / 8] ^= (uint8_t)(1 << bit % 8);
        }
        entry[0]--;
        expect_eight(track, 255, __LINE__);
        entry[1] ^= 0x80;
        expect_eight(track, 7, __LINE__);
        entry[0]++;
        entry[1] ^= 0x80;
    }
    map_entry(image, 40)[0] = 0;
    map_entry(image, 36)[0] = 0;
    expect_eight(36, 255, __LINE__); /* by track, wherever an entry stands */
    map_entry(image, 35)[3] = 0;
    expect_eight(35, 16, __LINE__);
}

/* The other layout's entries: bytes like any others, but for the other layout. */
static void bytes_of_the_other(void)
{
    uint8_t *others = sector_at(image, 18, 0) + OTHER_ENTRIES;
    code_disk();
    EXPECT(d64_check(OTHER, image, sizeof image, block, sizeof block), D64_WRONG_MAP);
    EXPECT_BLOCK(36, 0, 255, 0, 0);
    for (int i = 0; i < EXTRA; i++)
        others[i] = (uint8_t)(0x21 + 7 * i);
    memcpy(wanted, image, sizeof image);
    EXPECT(check(), D64_DONE);
    EXPECT_NOWHERE();
    EXPECT(store("NEW", 2, MOST - 2 * DATA_BYTES), D64_DONE);
    EXPECT_BLOCK(0, 0, 255, (long)MOST - 2 * DATA_BYTES, ROOM - 2);
    EXPECT(memcmp(sector_at(wanted, 18, 0) + OTHER_ENTRIES, others, EXTRA), 0);
    EXPECT(sector_at(image, 18, 0)[EXTRA_ENTRIES], 0);
    EXPECT(check(), D64_DONE);
    EXPECT(scratch("NEW"), D64_DONE);
    EXPECT_WANTED();
    EXPECT(format("CODES", 0x30, 0x31), D64_DONE);
    for (int i = 0; i < EXTRA; i++)
        EXPECT(others[i], 0);
}

/* Right entries at both places: both layouts accept the disk, until a call in one changes its own. */
static void a_disk_of_both(void)
{
    uint8_t *map = sector_at(image, 18, 0);
    code_disk();
    memcpy(map + OTHER_ENTRIES, map + EXTRA_ENTRIES, EXTRA);
    memcpy(wanted, image, sizeof image);
    EXPECT(check(), D64_DONE);
    EXPECT(d64_check(OTHER, image, sizeof image, block, sizeof block), D64_DONE);
    EXPECT(store("NEW", 1, MOST - 2 * DATA_BYTES), D64_DONE);
    EXPECT(check(), D64_DONE);
    EXPECT(d64_check(OTHER, image, sizeof image, block, sizeof block), D64_WRONG_MAP);
    EXPECT(scratch("NEW"), D64_DONE);
    EXPECT_WANTED();
    EXPECT(d64_store(OTHER, image, sizeof image, name, 3, 2, data, 300, block, sizeof block), D64_DONE);
    EXPECT(check(), D64_DONE); /* tracks 17 and 18 alone are written, whose entries both have */
    EXPECT(d64_check(OTHER, image, sizeof image, block, sizeof block), D64_DONE);
}

/* --- Chains ------------------------------------------------------------------------------------------------------- */

/* LAST has the last five tracks, 36/0 to 40/16, 85 sectors. */
static void last_disk(void)
{
    struct hand hand = {36, 0, 0};
    format_by_hand(image, "CODES", 0x30, 0x31);
    add_file(image, &hand, 0x82, "LAST", 85 * DATA_BYTES);
}

static void a_chain_to_the_last_sector(void)
{
    last_disk();
    EXPECT(sector_at(image, 40, 16) + SECTOR_BYTES - image, D64_IMAGE40_BYTES);
    EXPECT(sector_at(image, 40, 16)[1], 0xFF);
    EXPECT(check(), D64_DONE);
    EXPECT(read_file("LAST", sizeof out), D64_DONE);
    EXPECT_BLOCK(0, 0, 255, 85 * DATA_BYTES, 85);
    EXPECT(memcmp(out, data, 85 * DATA_BYTES), 0);
    EXPECT(d64_tell(LAYOUT, image, sizeof image, 0, out, sizeof out, block, sizeof block), D64_DONE);
    EXPECT(out[17], 36);
    EXPECT(out[19], 85);
    expect(list(sizeof out), D64_DONE, "the listing", __FILE__, __LINE__);
    EXPECT(memcmp(out + 37 + 43, "0298\n", 5), 0);
    EXPECT(scratch("LAST"), D64_DONE);
    EXPECT_BLOCK(0, 0, 255, 85 * DATA_BYTES, 85);
    format_by_hand(wanted, "CODES", 0x30, 0x31);
    EXPECT_WANTED();
}

static void links_off_the_disk(void)
{
    static const uint8_t bad[][2] = {{40, 17}, {41, 0}, {41, 1}, {36, 17}, {39, 18}, {255, 0}, {40, 255}};
    last_disk();
    for (size_t i = 0; i < sizeof bad / sizeof bad[0]; i++) {
        set_link(image, 40, 15, bad[i][0], bad[i][1]);
        EXPECT(check(), D64_BAD_LINK);
        EXPECT_BLOCK(40, 15, 0, 0, 0);
        sector_at(image, 18, 1)[3] = bad[i][0];
        sector_at(image, 18, 1)[4] = bad[i][1];
        EXPECT(check(), D64_BAD_LINK);
        EXPECT_BLOCK(18, 1, 0, 0, 0);
        sector_at(image, 18, 1)[3] = 36;
        sector_at(image, 18, 1)[4] = 0;
    }
    set_link(image, 40, 15, 36, 3); /* owned already */
    EXPECT(check(), D64_OWNED);
    EXPECT_BLOCK(40, 15, 0, 0, 0);
}

/* --- Room --------------------------------------------------------------------------------------------------------- */

/* After 35/16 comes 36/0, and after the last track nothing. */
static void the_biggest_file(void)
{
    struct hand hand = {17, 0, 0};
    format_by_hand(image, "CODES", 0x30, 0x31);
    EXPECT(MOST, 190246);
    EXPECT_REFUSED(store("ALL", 2, MOST + 1), D64_DISK_FULL);
    EXPECT(store("ALL", 2, MOST), D64_DONE);
    EXPECT_BLOCK(0, 0, 255, 190246, 749);
    format_by_hand(wanted, "CODES", 0x30, 0x31);
    add_file(wanted, &hand, 0x82, "ALL", MOST);
    EXPECT_WANTED();
    EXPECT(sector_at(image, 35, 16)[0], 36);
    EXPECT(sector_at(image, 35, 16)[1], 0);
    for (int i = 0; i < EXTRA; i++)
        EXPECT(sector_at(image, 18, 0)[EXTRA_ENTRIES + i], 0);
    EXPECT_REFUSED(store("MORE", 1, 0), D64_DISK_FULL);
    EXPECT(read_file("ALL", MOST), D64_DONE);
    EXPECT_BLOCK(0, 0, 255, 190246, 749);
    EXPECT(memcmp(out, data, MOST), 0);
    EXPECT(list(sizeof out), D64_DONE);
    EXPECT(memcmp(out + 37 + 43, "0000\n", 5), 0);
    EXPECT(scratch("ALL"), D64_DONE);
    format_by_hand(wanted, "CODES", 0x30, 0x31);
    EXPECT_WANTED();
}

/* 144 files of five sectors: the last eleven are on tracks 36 to 39, and the place of one is taken by the next. */
static void files_on_the_last_tracks(void)
{
    struct hand hand = {17, 0, 0};
    format_by_hand(image, "CODES", 0x30, 0x31);
    add_files(image, &hand, 144, 5 * DATA_BYTES);
    EXPECT(hand.track, 39);
    EXPECT(check(), D64_DONE);
    EXPECT_NOWHERE();
    memcpy(wanted, image, sizeof image);
    EXPECT(scratch("F140"), D64_DONE);
    EXPECT_BLOCK(0, 0, 255, 5 * DATA_BYTES, 5);
    EXPECT(check(), D64_DONE);
    EXPECT_REFUSED(store("MORE", 2, (ROOM - 720 + 5) * DATA_BYTES + 1), D64_DISK_FULL);
    EXPECT(store("F140", 2, 5 * DATA_BYTES), D64_DONE);
    EXPECT_WANTED();
    EXPECT_REFUSED(store("MORE", 2, 300), D64_DIRECTORY_FULL);
}

/* The sum of the layout's own counts, and not of the other's. */
static void the_listings_sum(void)
{
    uint8_t *map = sector_at(image, 18, 0);
    code_disk();
    for (int i = 0; i < 5; i++) {
        map[OTHER_ENTRIES + 4 * i] = 0x40;
        map[EXTRA_ENTRIES + 4 * i] = (uint8_t)(1 << i);
    }
    EXPECT(list(sizeof out), D64_DONE);
    EXPECT(memcmp(out + 37 + 43, "02B5\n", 5), 0); /* 662 and 31 */
    EXPECT(d64_listing(OTHER, map, D64_TRACK18_BYTES, out, sizeof out, block, sizeof block), D64_DONE);
    EXPECT(memcmp(out + 37 + 43, "03D6\n", 5), 0); /* 662 and 320 */
    EXPECT(d64_listing(D64_LAYOUT_35, map, D64_TRACK18_BYTES, out, sizeof out, block, sizeof block), D64_DONE);
    EXPECT(memcmp(out + 37 + 43, "0296\n", 5), 0);
}

int main(void)
{
    fill_data();
    a_fresh_map();
    unknown_layouts();
    sizes_of_others();
    wrong_entries();
    bytes_of_the_other();
    a_disk_of_both();
    a_chain_to_the_last_sector();
    links_off_the_disk();
    the_biggest_file();
    files_on_the_last_tracks();
    the_listings_sum();
    printf("layout_test: %d comparisons\n", tests);
    return 0;
}
