/*
 * Format, store and scratch as the user of d64.h meets them: document 01's examples, the errors it has met before, and
 * every refusal. What a call leaves is compared with disks written by hand, what a refusal leaves with the image
 * before. Ends with status 1 at the first difference. Compiled as C11 and as C++.
 */
#define _DEFAULT_SOURCE
#include "changing.h"

#include <sys/mman.h>

static void expect_entry(int track, int count, int first, int second, int third, int line)
{
    const uint8_t *entry = map_entry(image, track);
    expect(entry[0], count, "the count", __FILE__, line);
    expect(entry[1], first, "the first byte of bits", __FILE__, line);
    expect(entry[2], second, "the second byte of bits", __FILE__, line);
    expect(entry[3], third, "the third byte of bits", __FILE__, line);
}

static int free_off_track_18(void)
{
    int sum = 0;
    for (int track = 1; track <= TRACKS; track++)
        sum += track == 18 ? 0 : map_entry(image, track)[0];
    return sum;
}

/* A fresh disk in image and wanted. */
static struct hand fresh(void)
{
    struct hand hand = {17, 0, 0};
    EXPECT(format("CODES", 0x30, 0x31), D64_DONE);
    format_by_hand(wanted, "CODES", 0x30, 0x31);
    return hand;
}

static void a_disk_is_formatted(void)
{
    memset(image, 0xEE, sizeof image);
    EXPECT(format("CODES", 0x30, 0x31), D64_DONE);
    EXPECT_NOWHERE();
    format_by_hand(wanted, "CODES", 0x30, 0x31);
    EXPECT_WANTED();
    expect_entry(18, 0x11, 0xFC, 0xFF, 0x07, __LINE__);
    EXPECT(free_off_track_18(), ROOM);
    EXPECT(check(), D64_DONE);
    EXPECT(format("SIXTEEN BYTES!!!", 0x00, 0xFF), D64_DONE);
    format_by_hand(wanted, "SIXTEEN BYTES!!!", 0x00, 0xFF);
    EXPECT_WANTED();
    EXPECT(format("*", PAD, 0x80), D64_DONE);
    format_by_hand(wanted, "*", PAD, 0x80);
    EXPECT_WANTED();
}

static void a_format_is_refused(void)
{
    memset(image, 0xEE, sizeof image);
    EXPECT_REFUSED(format("", 0x30, 0x31), D64_BAD_NAME);
    EXPECT_REFUSED(format("SEVENTEEN BYTES! ", 0x30, 0x31), D64_BAD_NAME);
    EXPECT_REFUSED(format("A\xA0", 0x30, 0x31), D64_BAD_NAME);
    EXPECT_REFUSED(d64_format(LAYOUT, image, sizeof image - 1, NULL, 0, 1, 2, block, sizeof block), D64_WRONG_SIZE);
}

/* Document 01: format (CODES, 30 31), then store 300 bytes as CODE, PRG. */
static void the_example(void)
{
    static const char text[] = "434F444553A0A0A0A0A0A0A0A0A0A0A03031\n"
                               "821100434F4445A0A0A0A0A0A0A0A0A0A0A0A00200\n"
                               BY_TRACKS("0296\n", "02EB\n");
    const size_t length = sizeof text - 1;
    struct hand hand = fresh();
    EXPECT(store("CODE", 2, 300), D64_DONE);
    EXPECT_BLOCK(0, 0, 255, 300, 2);
    EXPECT(sector_at(image, 17, 0)[0], 0x11);
    EXPECT(sector_at(image, 17, 0)[1], 0x01);
    EXPECT(sector_at(image, 17, 1)[0], 0x00);
    EXPECT(sector_at(image, 17, 1)[1], 0x2F);
    expect_entry(17, 0x13, 0xFC, 0xFF, 0x1F, __LINE__);
    add_file(wanted, &hand, 0x82, "CODE", 300);
    EXPECT_WANTED();
    EXPECT(list(sizeof out), D64_DONE);
    EXPECT_BLOCK(0, 0, 255, (long)length, 0);
    EXPECT(memcmp(out, text, length), 0);
    EXPECT(read_file("CODE", sizeof out), D64_DONE);
    EXPECT_BLOCK(0, 0, 255, 300, 2);
    EXPECT(memcmp(out, data, 300), 0);
}

static void the_largest_file(void)
{
    struct hand hand = fresh();
    EXPECT_REFUSED(store("ALL", 2, MOST + 1), D64_DISK_FULL);
    EXPECT(store("ALL", 2, MOST), D64_DONE);
    EXPECT_BLOCK(0, 0, 255, MOST, ROOM);
    add_file(wanted, &hand, 0x82, "ALL", MOST);
    EXPECT_WANTED();
    EXPECT(scratch("ALL"), D64_DONE);
    EXPECT_BLOCK(0, 0, 255, MOST, ROOM);
    format_by_hand(wanted, "CODES", 0x30, 0x31);
    EXPECT_WANTED();
}

/* Lengths 0, 254 and 255 need 1, 1 and 2 sectors and end in n 1, 255 and 2; so at every edge of a sector. */
static void lengths(void)
{
    static const struct {
        const char *name;
        size_t length;
        int sectors;
    } files[] = {{"A", 0, 1},   {"B", 1, 1},   {"C", 253, 1}, {"D", 254, 1}, {"E", 255, 2},
                 {"F", 256, 2}, {"G", 508, 2}, {"H", 509, 3}, {"I", 510, 3}};
    struct hand hand = fresh();
    for (size_t i = 0; i < sizeof files / sizeof files[0]; i++) {
        EXPECT(store(files[i].name, 1, files[i].length), D64_DONE);
        EXPECT_BLOCK(0, 0, 255, (long)files[i].length, files[i].sectors);
        add_file(wanted, &hand, 0x81, files[i].name, files[i].length);
        EXPECT_WANTED();
    }
    EXPECT(sector_at(image, 17, 0)[1], 1);
    EXPECT(sector_at(image, 17, 3)[1], 255);
    EXPECT(sector_at(image, 17, 5)[1], 2);
}

static void kinds_and_names(void)
{
    static const uint32_t wrong[] = {0,   3,   4,   5,   0x81, 0x82,       0x83,
                                     255, 256, 257, 258, 259,  0x80000002, UINT32_MAX};
    fresh();
    for (size_t i = 0; i < sizeof wrong / sizeof wrong[0]; i++)
        EXPECT_REFUSED(store("CODE", wrong[i], 300), D64_BAD_KIND);
    EXPECT_REFUSED(store("", 4, 300), D64_BAD_NAME);
    EXPECT_REFUSED(store("", 3, 300), D64_BAD_NAME);
    EXPECT_REFUSED(store("SEVENTEEN BYTES! ", 2, 300), D64_BAD_NAME);
    EXPECT_REFUSED(store("CO\xA0" "DE", 2, 300), D64_BAD_NAME);
    EXPECT(store("CODE", 2, 300), D64_DONE);
    EXPECT(store("CODE ", 2, 300), D64_DONE);
    EXPECT(store("SIXTEEN BYTES!!!", 1, 300), D64_DONE);
    EXPECT_BLOCK(0, 0, 255, 300, 2);
    EXPECT_REFUSED(store("CODE", 1, 0), D64_NAME_TAKEN);
    EXPECT_REFUSED(scratch("CODE*"), D64_NOT_FOUND);
    EXPECT_REFUSED(scratch("COD"), D64_NOT_FOUND);
    EXPECT_REFUSED(scratch(""), D64_BAD_NAME);
    EXPECT_REFUSED(scratch("CODE\xA0"), D64_BAD_NAME);
    EXPECT(check(), D64_DONE);
}

/* A disk with USR files in image and wanted: OLD of 300 bytes, LOCKED of ten. It is accepted. */
static struct hand usr_disk(void)
{
    struct hand hand = {17, 0, 0};
    format_by_hand(wanted, "CODES", 0x30, 0x31);
    add_file(wanted, &hand, 0x83, "OLD", 300);
    add_file(wanted, &hand, 0xC3, "LOCKED", 10);
    memcpy(image, wanted, sizeof image);
    EXPECT(check(), D64_DONE);
    EXPECT_NOWHERE();
    return hand;
}

/* A store of kind 3 is refused by 10, whatever would refuse it later on. One that is done leaves USR files alone. */
static void usr_is_not_stored(void)
{
    struct hand hand = usr_disk();
    EXPECT_REFUSED(store("NEW", 3, 0), D64_BAD_KIND);
    EXPECT_REFUSED(store("OLD", 3, 300), D64_BAD_KIND);
    EXPECT_REFUSED(store("LOCKED", 3, 10), D64_BAD_KIND);
    EXPECT_REFUSED(store("NEW", 3, MOST + 1), D64_BAD_KIND);
    sector_at(image, 18, 0)[2] = 0x42;
    EXPECT_REFUSED(store("NEW", 3, 300), D64_BAD_KIND);
    sector_at(image, 18, 0)[2] = 0x41;
    EXPECT_REFUSED(store("OLD", 2, 300), D64_NAME_TAKEN);
    EXPECT_REFUSED(store("LOCKED", 1, 10), D64_NAME_TAKEN);
    EXPECT(store("NEW", 2, 600), D64_DONE);
    EXPECT_BLOCK(0, 0, 255, 600, 3);
    add_file(wanted, &hand, 0x82, "NEW", 600);
    EXPECT_WANTED();
}

/* The rest of an entry is its first sector, count and length. */
static void expect_told(size_t position, int type, const char *name, const char *rest)
{
    uint8_t told[D64_ENTRY_BYTES];
    told[0] = (uint8_t)type;
    put_name(told + 1, name);
    memcpy(told + 17, rest, 8);
    EXPECT(d64_tell(LAYOUT, image, sizeof image, position, out, sizeof told, block, sizeof block), D64_DONE);
    EXPECT_NOWHERE();
    for (size_t i = 0; i < sizeof told; i++)
        EXPECT(out[i], told[i]);
}

static void usr_files_are_shown(void)
{
    static const char text[] = "434F444553A0A0A0A0A0A0A0A0A0A0A03031\n"
                               "8311004F4C44A0A0A0A0A0A0A0A0A0A0A0A0A00200\n"
                               "C311024C4F434B4544A0A0A0A0A0A0A0A0A0A00100\n"
                               BY_TRACKS("0295\n", "02EA\n");
    const size_t length = sizeof text - 1;
    usr_disk();
    expect_told(0, 0x83, "OLD", "\x11\x00\x02\x00\x2C\x01\x00\x00");
    expect_told(1, 0xC3, "LOCKED", "\x11\x02\x01\x00\x0A\x00\x00\x00");
    EXPECT(list(length), D64_DONE);
    EXPECT_BLOCK(0, 0, 255, (long)length, 0);
    EXPECT(memcmp(out, text, length), 0);
    memset(out, 0x55, sizeof out);
    EXPECT(read_file("OLD", 300), D64_DONE);
    EXPECT_BLOCK(0, 0, 255, 300, 2);
    EXPECT(memcmp(out, data, 300), 0);
    memset(out, 0x55, sizeof out);
    EXPECT(read_file("LOCKED", sizeof out), D64_DONE);
    EXPECT_BLOCK(0, 0, 255, 10, 1);
    EXPECT(memcmp(out, data, 10), 0);
    EXPECT(out[10], 0x55);
    EXPECT_WANTED();
}

static void usr_files_are_scratched(void)
{
    struct hand second = {17, 2, 1};
    usr_disk();
    sector_at(image, 17, 1)[200] = 0xEE; /* behind the last byte */
    EXPECT(scratch("OLD"), D64_DONE);
    EXPECT_BLOCK(0, 0, 255, 300, 2);
    format_by_hand(wanted, "CODES", 0x30, 0x31);
    add_file(wanted, &second, 0xC3, "LOCKED", 10);
    EXPECT_WANTED();
    EXPECT(scratch("LOCKED"), D64_DONE);
    EXPECT_BLOCK(0, 0, 255, 10, 1);
    format_by_hand(wanted, "CODES", 0x30, 0x31);
    EXPECT_WANTED();
}

/* They come from disks that were written before kind 3 was refused. */
static void usr_files(void)
{
    usr_is_not_stored();
    usr_files_are_shown();
    usr_files_are_scratched();
}

/* 144 files, then no slot is empty and track 18 is full: 14, with room for files and without. */
static void a_full_directory(void)
{
    struct hand hand = fresh();
    while (hand.slot < 144) {
        char name[5];
        name_file(name, hand.slot);
        EXPECT(store(name, 2, 10), D64_DONE);
        add_files(wanted, &hand, hand.slot + 1, 10);
        EXPECT_WANTED();
    }
    EXPECT(free_off_track_18(), ROOM - 144);
    EXPECT_REFUSED(store("MORE", 2, 10), D64_DIRECTORY_FULL);
    EXPECT_REFUSED(store("MORE", 2, MOST), D64_DIRECTORY_FULL);
    EXPECT_REFUSED(store("F000", 2, MOST), D64_NAME_TAKEN);
    EXPECT_REFUSED(store("MORE", 3, MOST), D64_BAD_KIND);
    EXPECT(scratch("F077"), D64_DONE);
    EXPECT_BLOCK(0, 0, 255, 10, 1);
    EXPECT_REFUSED(store("MORE", 2, MOST), D64_DISK_FULL);
    EXPECT(store("F077", 2, 10), D64_DONE);
    EXPECT_WANTED();
}

/* MIDDLE has 18/2 to 18/18, so that the directory cannot grow; then the lowest sector that it gives back joins. */
static void a_file_is_in_the_way(void)
{
    struct hand hand = {18, 2, 0};
    format_by_hand(image, "MIDDLE", 0x30, 0x31);
    add_file(image, &hand, 0xC2, "MIDDLE", 17 * DATA_BYTES);
    hand.track = 17;
    hand.sector = 0;
    add_files(image, &hand, 8, 600);
    EXPECT(check(), D64_DONE);
    EXPECT_REFUSED(store("MORE", 2, 0), D64_DIRECTORY_FULL);
    EXPECT(scratch("MIDDLE"), D64_DONE);
    EXPECT_BLOCK(0, 0, 255, 17 * DATA_BYTES, 17);
    EXPECT(store("ONE", 1, 0), D64_DONE);
    EXPECT(sector_at(image, 18, 1)[5], 'O');
    EXPECT(store("TWO", 1, 0), D64_DONE);
    EXPECT(sector_at(image, 18, 1)[0], 18);
    EXPECT(sector_at(image, 18, 1)[1], 2);
    EXPECT(sector_at(image, 18, 2)[1], 0xFF);
    EXPECT(sector_at(image, 18, 2)[5], 'T');
    expect_entry(18, 0x10, 0xF8, 0xFF, 0x07, __LINE__);
    EXPECT(check(), D64_DONE);
}

static void track_18_is_no_room(void)
{
    fresh();
    EXPECT(store("NEARLY", 2, MOST - DATA_BYTES), D64_DONE);
    EXPECT_REFUSED(store("MORE", 2, DATA_BYTES + 1), D64_DISK_FULL);
    EXPECT(store("MORE", 2, DATA_BYTES), D64_DONE);
    EXPECT(map_entry(image, 18)[0], 17);
    EXPECT_REFUSED(store("NONE", 2, 0), D64_DISK_FULL);
}

/* Freed sectors are all zeros, and are used again in house order; the directory doesn't shrink. */
static void codes_are_cleared(void)
{
    struct hand hand = fresh();
    add_files(wanted, &hand, 9, 600);
    memcpy(image, wanted, sizeof image);
    EXPECT(scratch("F001"), D64_DONE);
    EXPECT_BLOCK(0, 0, 255, 600, 3);
    for (int sector = 3; sector < 6; sector++)
        for (int i = 0; i < SECTOR_BYTES; i++)
            EXPECT(sector_at(image, 17, sector)[i], 0);
    for (int i = 2; i < SLOT_BYTES; i++)
        EXPECT(sector_at(image, 18, 1)[SLOT_BYTES + i], 0);
    EXPECT(store("F001", 2, 600), D64_DONE);
    EXPECT_WANTED();
    EXPECT(scratch("F008"), D64_DONE);
    EXPECT(sector_at(image, 18, 1)[1], 2);
    EXPECT(map_entry(image, 18)[0], 16);
    EXPECT(store("F008", 2, 600), D64_DONE);
    EXPECT_WANTED();
}

/* What check ignores is left where store and scratch have no business, and cleared where they have. */
static void ignored_bytes(void)
{
    struct hand hand = fresh();
    add_file(wanted, &hand, 0x82, "ONE", 10);
    memcpy(image, wanted, sizeof image);
    memset(sector_at(image, 18, 1) + SLOT_BYTES, 0xEE, SLOT_BYTES);
    sector_at(image, 18, 1)[SLOT_BYTES + 2] = 0;
    memset(sector_at(image, 17, 1), 0xEE, SECTOR_BYTES);
    add_file(wanted, &hand, 0x82, "TWO", 10);
    memset(sector_at(wanted, 18, 1) + SLOT_BYTES, 0xEE, 2);
    EXPECT(store("TWO", 2, 10), D64_DONE);
    EXPECT_WANTED();
    sector_at(image, 17, 1)[200] = 0xEE; /* behind the last byte */
    sector_at(image, 18, 1)[SLOT_BYTES + 2] |= 0x40;
    EXPECT(scratch("TWO"), D64_DONE);
    memset(sector_at(wanted, 17, 1), 0, SECTOR_BYTES);
    memset(sector_at(wanted, 18, 1) + SLOT_BYTES + 2, 0, SLOT_BYTES - 2);
    memcpy(map_entry(wanted, 17), "\x14\xFE\xFF\x1F", 4);
    EXPECT_WANTED();
}

/* 18/0 of a disk with bits past its tracks' last sectors: none, one, some or all of them; empty, and then full. */
#define MAP_HEAD "\x12\x01\x41\x00"
#define MAP_NAME "CODES\xA0\xA0\xA0\xA0\xA0\xA0\xA0\xA0\xA0\xA0\xA0" "\xA0\xA0" "01" "\xA0" "2A" "\xA0\xA0\xA0\xA0"

static const char empty_map[SECTOR_BYTES + 1] = MAP_HEAD
    "\x15\xFF\xFF\x1F" "\x15\xFF\xFF\xFF" "\x15\xFF\xFF\x3F" "\x15\xFF\xFF\x5F" "\x15\xFF\xFF\x9F" "\x15\xFF\xFF\x7F"
    "\x15\xFF\xFF\xBF" "\x15\xFF\xFF\xDF" "\x15\xFF\xFF\x1F" "\x15\xFF\xFF\xFF" "\x15\xFF\xFF\x3F" "\x15\xFF\xFF\x5F"
    "\x15\xFF\xFF\x9F" "\x15\xFF\xFF\x7F" "\x15\xFF\xFF\xBF" "\x15\xFF\xFF\xDF" "\x15\xFF\xFF\xFF"
    "\x11\xFC\xFF\xFF"
    "\x13\xFF\xFF\x0F" "\x13\xFF\xFF\x17" "\x13\xFF\xFF\x27" "\x13\xFF\xFF\x47" "\x13\xFF\xFF\x87" "\x13\xFF\xFF\xFF"
    "\x12\xFF\xFF\x07" "\x12\xFF\xFF\x0B" "\x12\xFF\xFF\x13" "\x12\xFF\xFF\x43" "\x12\xFF\xFF\x83" "\x12\xFF\xFF\xFF"
    "\x11\xFF\xFF\x03" "\x11\xFF\xFF\x05" "\x11\xFF\xFF\x81" "\x11\xFF\xFF\x01" "\x11\xFF\xFF\xFF"
    MAP_NAME;

static const char full_map[SECTOR_BYTES + 1] = MAP_HEAD
    "\x00\x00\x00\x00" "\x00\x00\x00\xE0" "\x00\x00\x00\x20" "\x00\x00\x00\x40" "\x00\x00\x00\x80" "\x00\x00\x00\x60"
    "\x00\x00\x00\xA0" "\x00\x00\x00\xC0" "\x00\x00\x00\x00" "\x00\x00\x00\xE0" "\x00\x00\x00\x20" "\x00\x00\x00\x40"
    "\x00\x00\x00\x80" "\x00\x00\x00\x60" "\x00\x00\x00\xA0" "\x00\x00\x00\xC0" "\x00\x00\x00\xE0"
    "\x11\xFC\xFF\xFF"
    "\x00\x00\x00\x08" "\x00\x00\x00\x10" "\x00\x00\x00\x20" "\x00\x00\x00\x40" "\x00\x00\x00\x80" "\x00\x00\x00\xF8"
    "\x00\x00\x00\x04" "\x00\x00\x00\x08" "\x00\x00\x00\x10" "\x00\x00\x00\x40" "\x00\x00\x00\x80" "\x00\x00\x00\xFC"
    "\x00\x00\x00\x02" "\x00\x00\x00\x04" "\x00\x00\x00\x80" "\x00\x00\x00\x00" "\x00\x00\x00\xFE"
    MAP_NAME;

#define MAP_BYTES BY_TRACKS(SECTOR_BYTES, 0xAC) /* layout_test has the entries of tracks 36 to 40 */

static void expect_map(const char *map, int line)
{
    for (int i = 0; i < MAP_BYTES; i++)
        expect(sector_at(image, 18, 0)[i], (uint8_t)map[i], "a byte of 18/0", __FILE__, line);
}

/* The disk with these bits in image and wanted. It is accepted. */
static void spare_disk(void)
{
    format_by_hand(wanted, "CODES", 0x30, 0x31);
    memcpy(sector_at(wanted, 18, 0), empty_map, MAP_BYTES);
    memcpy(image, wanted, sizeof image);
    EXPECT(check(), D64_DONE);
}

/* A store on every track, the scratch of it, and what is refused; then document 01's example. */
static void spare_bits_stay(void)
{
    spare_disk();
    EXPECT_REFUSED(store("ALL", 2, MOST + 1), D64_DISK_FULL);
    EXPECT(store("ALL", 2, MOST), D64_DONE);
    EXPECT_BLOCK(0, 0, 255, MOST, ROOM);
    expect_map(full_map, __LINE__);
    EXPECT_REFUSED(store("NONE", 2, 0), D64_DISK_FULL);
    EXPECT_REFUSED(scratch("NONE"), D64_NOT_FOUND);
    EXPECT(scratch("ALL"), D64_DONE);
    expect_map(empty_map, __LINE__);
    EXPECT_WANTED();
    EXPECT(store("CODE", 2, 300), D64_DONE);
    expect_entry(17, 0x13, 0xFC, 0xFF, 0xFF, __LINE__);
    EXPECT(scratch("CODE"), D64_DONE);
    EXPECT_WANTED();
    map_entry(image, 2)[0] = 0x18; /* 18 FF FF FF: they are counted */
    memcpy(before, image, sizeof image);
    EXPECT(store("CODE", 2, 300), D64_WRONG_MAP);
    EXPECT_BLOCK(2, 255, 255, 0, 0);
    EXPECT(scratch("CODE"), D64_WRONG_MAP);
    EXPECT_BLOCK(2, 255, 255, 0, 0);
    expect_image(before, __LINE__);
}

/* The directory grows beside them, and not into 18/19. */
static void spare_bits_are_no_slots(void)
{
    struct hand few = {17, 0, 0}, many = {17, 0, 0};
    spare_disk();
    add_files(image, &few, 8, 10);
    EXPECT(store("MORE", 2, 10), D64_DONE);
    expect_entry(18, 0x10, 0xF8, 0xFF, 0xFF, __LINE__);
    spare_disk();
    add_files(image, &many, 144, 10);
    expect_entry(18, 0x00, 0x00, 0x00, 0xF8, __LINE__);
    EXPECT_REFUSED(store("MORE", 2, 10), D64_DIRECTORY_FULL);
}

static void spare_bits_are_cleared_by_format(void)
{
    spare_disk();
    EXPECT_REFUSED(format("", 0x30, 0x31), D64_BAD_NAME);
    EXPECT(format("CODES", 0x30, 0x31), D64_DONE);
    format_by_hand(wanted, "CODES", 0x30, 0x31);
    EXPECT_WANTED();
}

static void dos_versions(void)
{
    fresh();
    EXPECT(store("CODE", 2, 300), D64_DONE);
    sector_at(image, 18, 0)[2] = 0x42;
    EXPECT_REFUSED(store("MORE", 2, 300), D64_READ_ONLY);
    EXPECT_REFUSED(store("CODE", 2, 300), D64_READ_ONLY);
    EXPECT_REFUSED(scratch("CODE"), D64_READ_ONLY);
    EXPECT_REFUSED(scratch("NONE"), D64_READ_ONLY);
    EXPECT(read_file("CODE", sizeof out), D64_DONE);
    sector_at(image, 18, 0)[2] = 0x00;
    EXPECT(store("MORE", 2, 300), D64_DONE);
    EXPECT(scratch("CODE"), D64_DONE);
    EXPECT(sector_at(image, 18, 0)[2], 0x00);
    sector_at(image, 18, 0)[2] = 0x42;
    EXPECT(format("CODES", 0x30, 0x31), D64_DONE);
    EXPECT(sector_at(image, 18, 0)[2], 0x41);
}

/* A damaged image refuses store and scratch as it refuses the check, and is formatted all the same. */
static void a_damaged_image(void)
{
    struct hand hand = fresh();
    add_files(image, &hand, 2, 600);
    set_link(image, 17, 4, 17, 1); /* two chains meet */
    memcpy(before, image, sizeof image);
    EXPECT(store("MORE", 2, 0), D64_OWNED);
    EXPECT_BLOCK(17, 4, 1, 0, 0);
    EXPECT(scratch("F000"), D64_OWNED);
    EXPECT_BLOCK(17, 4, 1, 0, 0);
    expect_image(before, __LINE__);
    EXPECT_REFUSED(store("MORE", 4, 0), D64_BAD_KIND);
    EXPECT_REFUSED(store("MORE", 3, 0), D64_BAD_KIND);
    EXPECT_REFUSED(scratch(""), D64_BAD_NAME);
    EXPECT(format("CODES", 0x30, 0x31), D64_DONE);
    EXPECT_WANTED();
}

static void blocks_of_other_sizes(void)
{
    static const uint8_t name[4] = {'C', 'O', 'D', 'E'};
    uint8_t wide[D64_BLOCK_BYTES + 1];
    fresh();
    EXPECT(store("CODE", 2, 300), D64_DONE);
    memcpy(before, image, sizeof image);
    memset(wide, 0x55, sizeof wide);
    for (size_t size = 0; size <= sizeof wide; size++) {
        if (size == D64_BLOCK_BYTES)
            continue;
        EXPECT(d64_format(LAYOUT, image, sizeof image, name, sizeof name, 1, 2, wide, size), D64_SHORT);
        EXPECT(d64_store(LAYOUT, image, sizeof image, name, 3, 2, data, 300, wide, size), D64_SHORT);
        EXPECT(d64_scratch(LAYOUT, image, sizeof image, name, sizeof name, wide, size), D64_SHORT);
        EXPECT(d64_store(LAYOUT, image, 0, NULL, 0, 0, NULL, 0, wide, size), D64_SHORT);
    }
    for (size_t i = 0; i < sizeof wide; i++)
        EXPECT(wide[i], 0x55);
    expect_image(before, __LINE__);
}

static void null_is_an_empty_slice(void)
{
    const uint8_t *code = (const uint8_t *)"CODE";
    struct hand hand = fresh();
    EXPECT_REFUSED(d64_format(LAYOUT, NULL, 0, code, 4, 1, 2, block, sizeof block), D64_WRONG_SIZE);
    EXPECT_REFUSED(d64_format(LAYOUT, image, sizeof image, NULL, 0, 1, 2, block, sizeof block), D64_BAD_NAME);
    EXPECT_REFUSED(d64_store(LAYOUT, NULL, 0, NULL, 0, 0, NULL, 0, block, sizeof block), D64_WRONG_SIZE);
    EXPECT_REFUSED(d64_store(LAYOUT, image, sizeof image, NULL, 0, 2, NULL, 0, block, sizeof block), D64_BAD_NAME);
    EXPECT_REFUSED(d64_scratch(LAYOUT, NULL, 0, NULL, 0, block, sizeof block), D64_WRONG_SIZE);
    EXPECT_REFUSED(d64_scratch(LAYOUT, image, sizeof image, NULL, 0, block, sizeof block), D64_BAD_NAME);
    EXPECT(d64_format(LAYOUT, NULL, 0, NULL, 0, 0, 0, NULL, 0), D64_SHORT);
    EXPECT(d64_store(LAYOUT, NULL, 0, NULL, 0, 0, NULL, 0, NULL, 0), D64_SHORT);
    EXPECT(d64_scratch(LAYOUT, NULL, 0, NULL, 0, NULL, 0), D64_SHORT);
    EXPECT_WANTED();
    EXPECT(d64_store(LAYOUT, image, sizeof image, code, 4, 2, NULL, 0, block, sizeof block), D64_DONE);
    EXPECT_BLOCK(0, 0, 255, 0, 1);
    add_file(wanted, &hand, 0x82, "CODE", 0);
    EXPECT_WANTED();
}

/* A length is not cut to 32 bits: of 4 GiB and 300 bytes no 300 are stored, and of such a name no four bytes. */
static void vast_lengths(void)
{
    const size_t vast = ((size_t)1 << 32) + 300, name_len = ((size_t)1 << 32) + 4;
    void *pages = mmap(NULL, vast, PROT_READ, MAP_PRIVATE | MAP_ANONYMOUS | MAP_NORESERVE, -1, 0);
    const uint8_t *bytes = (const uint8_t *)pages;
    if (pages == MAP_FAILED)
        exit(2);
    fresh();
    EXPECT_REFUSED(d64_store(LAYOUT, image, sizeof image, (const uint8_t *)"CODE", 4, 2, bytes, vast, block, sizeof block),
                   D64_DISK_FULL);
    EXPECT_REFUSED(d64_store(LAYOUT, image, sizeof image, bytes, name_len, 2, data, 300, block, sizeof block), D64_BAD_NAME);
    EXPECT_REFUSED(d64_scratch(LAYOUT, image, sizeof image, bytes, name_len, block, sizeof block), D64_BAD_NAME);
    EXPECT_REFUSED(d64_format(LAYOUT, image, sizeof image, bytes, name_len, 1, 2, block, sizeof block), D64_BAD_NAME);
    munmap(pages, vast);
}

int main(void)
{
    fill_data();
    a_disk_is_formatted();
    a_format_is_refused();
    the_example();
    the_largest_file();
    lengths();
    kinds_and_names();
    usr_files();
    a_full_directory();
    a_file_is_in_the_way();
    track_18_is_no_room();
    codes_are_cleared();
    ignored_bytes();
    spare_bits_stay();
    spare_bits_are_no_slots();
    spare_bits_are_cleared_by_format();
    dos_versions();
    a_damaged_image();
    blocks_of_other_sizes();
    null_is_an_empty_slice();
    vast_lengths();
    printf("writing_test: %d comparisons\n", tests);
    return 0;
}
