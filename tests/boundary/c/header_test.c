/*
 * d64.h as its user meets it: each call that only reads on disks written by hand, document 01's examples for them, and
 * null pointers with length 0. Ends with status 1 at the first difference. Compiled as C11 and as C++.
 */
#include "expect.h"

/* Whether out is 'fill' from 'from' to its end. */
static int is_filled(size_t from, int fill)
{
    while (from < sizeof out && out[from] == fill)
        from++;
    return from == sizeof out;
}

static void fill_out(int fill)
{
    memset(out, fill, sizeof out);
}

/* A disk with the file CODE, a PRG of 300 bytes, as document 01 has it. */
static struct hand code_disk(void)
{
    struct hand hand = {17, 0, 0};
    format_by_hand(image, "CODES", 0x30, 0x31);
    add_file(image, &hand, 0x82, "CODE", 300);
    return hand;
}

static void constants(void)
{
    EXPECT(D64_IMAGE_BYTES, 683 * 256);
    EXPECT(D64_IMAGE40_BYTES, 768 * 256);
    EXPECT(D64_LAYOUT_35, 0);
    EXPECT(D64_LAYOUT_SPEEDDOS, 1);
    EXPECT(D64_LAYOUT_DOLPHIN, 2);
    EXPECT(D64_UNKNOWN_LAYOUT, 17);
    EXPECT(D64_TRACK18_BYTES, 19 * 256);
    EXPECT(D64_TRACK18_OFFSET, 357 * 256);
    EXPECT(D64_LISTING_BYTES, 37 + 144 * 43 + 5);
    EXPECT(D64_DONE, 0);
    EXPECT(D64_SHORT, 16);
}

static void a_formatted_disk(void)
{
    format_by_hand(image, "CODES", 0x30, 0x31);
    EXPECT(check(), D64_DONE);
    EXPECT_NOWHERE();
    EXPECT(map_entry(image, 18)[0], 0x11);
    EXPECT(map_entry(image, 18)[1], 0xFC);
    EXPECT(read_file("CODE", sizeof out), D64_NOT_FOUND);
    EXPECT_NOWHERE();
    EXPECT(list(D64_LISTING_BYTES), D64_DONE);
    EXPECT_BLOCK(0, 0, 255, 37 + 5, 0);
}

static void a_file_is_read(void)
{
    code_disk();
    EXPECT(sector_at(image, 17, 0)[0], 0x11);
    EXPECT(sector_at(image, 17, 0)[1], 0x01);
    EXPECT(sector_at(image, 17, 1)[1], 0x2F);
    EXPECT(check(), D64_DONE);
    EXPECT_NOWHERE();
    fill_out(0xEE);
    EXPECT(read_file("CODE", sizeof out), D64_DONE);
    EXPECT_BLOCK(0, 0, 255, 300, 2);
    for (size_t i = 0; i < 300; i++)
        EXPECT(out[i], file_byte(i));
    EXPECT(is_filled(300, 0xEE), 1);
    EXPECT(read_file("CODE", 300), D64_DONE);
    EXPECT_BLOCK(0, 0, 255, 300, 2);
}

static void a_short_output_is_left(void)
{
    code_disk();
    fill_out(0xEE);
    EXPECT(read_file("CODE", 299), D64_SHORT);
    EXPECT_NOWHERE();
    EXPECT(is_filled(0, 0xEE), 1);
}

static void names_asked_for(void)
{
    code_disk();
    EXPECT(read_file("CODF", sizeof out), D64_NOT_FOUND);
    EXPECT(read_file("COD", sizeof out), D64_NOT_FOUND);
    EXPECT(read_file("CODE ", sizeof out), D64_NOT_FOUND);
    EXPECT(read_file("CODE*", sizeof out), D64_NOT_FOUND);
    EXPECT(read_file("code", sizeof out), D64_NOT_FOUND);
    EXPECT(read_file("CODE\xA0", sizeof out), D64_BAD_NAME);
    EXPECT(read_file("SEVENTEEN BYTES! ", sizeof out), D64_BAD_NAME);
    EXPECT(read_file("", sizeof out), D64_BAD_NAME);
    EXPECT_NOWHERE();
}

static void a_file_is_told(void)
{
    static const uint8_t code[D64_ENTRY_BYTES] = {0x82, 'C', 'O', 'D', 'E', PAD, PAD, PAD, PAD, PAD, PAD, PAD, PAD,
                                                  PAD,  PAD, PAD, PAD, 17,  0,   2,   0,   44,  1,   0,   0};
    struct hand hand = code_disk();
    add_file(image, &hand, 0xC1, "LOCKED", 0);
    fill_out(0xEE);
    EXPECT(d64_tell(LAYOUT, image, sizeof image, 0, out, D64_ENTRY_BYTES, block, sizeof block), D64_DONE);
    EXPECT_NOWHERE();
    EXPECT(memcmp(out, code, sizeof code), 0);
    EXPECT(is_filled(D64_ENTRY_BYTES, 0xEE), 1);
    EXPECT(d64_tell(LAYOUT, image, sizeof image, 1, out, sizeof out, block, sizeof block), D64_DONE);
    EXPECT(out[0], 0xC1);
    EXPECT(is_filled(D64_ENTRY_BYTES, 0xEE), 1);
    fill_out(0xEE);
    EXPECT(d64_tell(LAYOUT, image, sizeof image, 2, out, sizeof out, block, sizeof block), D64_NOT_FOUND);
    EXPECT(d64_tell(LAYOUT, image, sizeof image, SIZE_MAX, out, sizeof out, block, sizeof block), D64_NOT_FOUND);
    EXPECT(d64_tell(LAYOUT, image, sizeof image, 1, out, 24, block, sizeof block), D64_SHORT);
    EXPECT(d64_tell(LAYOUT, image, sizeof image, 2, out, 24, block, sizeof block), D64_NOT_FOUND);
    EXPECT_NOWHERE();
    EXPECT(is_filled(0, 0xEE), 1);
}

static void the_whole_listing(void)
{
    static const char text[] = "434F444553A0A0A0A0A0A0A0A0A0A0A03031\n"
                               "821100434F4445A0A0A0A0A0A0A0A0A0A0A0A00200\n"
                               BY_TRACKS("0296\n", "02EB\n");
    const size_t length = sizeof text - 1;
    code_disk();
    EXPECT(length, 37 + 43 + 5);
    fill_out(0xEE);
    EXPECT(list(length), D64_DONE);
    EXPECT_BLOCK(0, 0, 255, (long)length, 0);
    EXPECT(memcmp(out, text, length), 0);
    EXPECT(is_filled(length, 0xEE), 1);
    fill_out(0xEE);
    EXPECT(list(length - 1), D64_SHORT);
    EXPECT_NOWHERE();
    EXPECT(is_filled(0, 0xEE), 1);
}

static void the_longest_listing(void)
{
    struct hand hand = {17, 0, 0};
    format_by_hand(image, "FULL", 0x30, 0x31);
    add_files(image, &hand, 144, 10);
    EXPECT(check(), D64_DONE);
    EXPECT(list(D64_LISTING_BYTES), D64_DONE);
    EXPECT_BLOCK(0, 0, 255, D64_LISTING_BYTES, 0);
    EXPECT(list(D64_LISTING_BYTES - 1), D64_SHORT);
    EXPECT(read_file("F143", 10), D64_DONE);
    EXPECT_BLOCK(0, 0, 255, 10, 1);
}

static void the_largest_file(void)
{
    struct hand hand = {17, 0, 0};
    format_by_hand(image, "FULL", 0x30, 0x31);
    add_file(image, &hand, 0x83, "ALL", MOST_BYTES);
    EXPECT(check(), D64_DONE);
    EXPECT(read_file("ALL", MOST_BYTES - 1), D64_SHORT);
    EXPECT(read_file("ALL", MOST_BYTES), D64_DONE);
    EXPECT_BLOCK(0, 0, 255, (long)MOST_BYTES, ROOM);
    for (size_t i = 0; i < MOST_BYTES; i++)
        EXPECT(out[i], file_byte(i));
}

/* The number of bytes in the last sector is n - 1: lengths 0, 254 and 255 end in n 1, 255 and 2. */
static void the_last_byte_is_not_counted(void)
{
    struct hand hand = {17, 0, 0};
    format_by_hand(image, "EDGES", 0x30, 0x31);
    add_file(image, &hand, 0x81, "NONE", 0);
    add_file(image, &hand, 0x81, "FULL", 254);
    add_file(image, &hand, 0x81, "MORE", 255);
    EXPECT(sector_at(image, 17, 0)[1], 1);
    EXPECT(sector_at(image, 17, 1)[1], 255);
    EXPECT(sector_at(image, 17, 3)[1], 2);
    EXPECT(read_file("NONE", 0), D64_DONE);
    EXPECT_BLOCK(0, 0, 255, 0, 1);
    EXPECT(read_file("FULL", 254), D64_DONE);
    EXPECT_BLOCK(0, 0, 255, 254, 1);
    EXPECT(read_file("MORE", 255), D64_DONE);
    EXPECT_BLOCK(0, 0, 255, 255, 2);
}

static void the_link_in_18_0_is_not_trusted(void)
{
    code_disk();
    set_link(image, 18, 0, 99, 99);
    EXPECT(check(), D64_DONE);
    EXPECT(list(D64_LISTING_BYTES), D64_DONE);
    set_link(image, 18, 0, 0, 0);
    EXPECT(check(), D64_DONE);
}

/* ONE is 17/0 to 17/2, TWO is 17/3 to 17/5. */
static void two_files(void)
{
    struct hand hand = {17, 0, 0};
    format_by_hand(image, "CODES", 0x30, 0x31);
    add_file(image, &hand, 0x81, "ONE", 600);
    add_file(image, &hand, 0x81, "TWO", 600);
    EXPECT(check(), D64_DONE);
}

/* Every call on the image refuses alike, and nothing is written. */
static void all_refuse(uint32_t number, int track, int sector, int slot, int line)
{
    memcpy(before, image, sizeof image);
    fill_out(0xEE);
    expect(check(), number, "check", __FILE__, line);
    expect_block(track, sector, slot, 0, 0, __FILE__, line);
    expect(read_file("ONE", sizeof out), number, "read", __FILE__, line);
    expect_block(track, sector, slot, 0, 0, __FILE__, line);
    expect(d64_tell(LAYOUT, image, sizeof image, 0, out, sizeof out, block, sizeof block), number, "tell", __FILE__, line);
    expect_block(track, sector, slot, 0, 0, __FILE__, line);
    expect(is_filled(0, 0xEE), 1, "out as it was", __FILE__, line);
    expect(memcmp(before, image, sizeof image), 0, "the image's change", __FILE__, line);
}

#define ALL_REFUSE(number, track, sector, slot) all_refuse(number, track, sector, slot, __LINE__)

static void chains_that_go_wrong(void)
{
    two_files();
    set_link(image, 17, 4, 17, 1); /* two chains meet: 3 at the later file's link */
    ALL_REFUSE(D64_OWNED, 17, 4, 1);
    two_files();
    sector_at(image, 18, 1)[SLOT_BYTES + 4] = 0; /* they meet at the first link, which the directory holds */
    ALL_REFUSE(D64_OWNED, 18, 1, 1);
    two_files();
    set_link(image, 17, 2, 17, 0); /* back to the start */
    ALL_REFUSE(D64_OWNED, 17, 2, 0);
    two_files();
    set_link(image, 17, 2, 17, 2); /* back to itself */
    ALL_REFUSE(D64_OWNED, 17, 2, 0);
    two_files();
    set_link(image, 17, 2, 0, 0); /* last link 00 00 */
    ALL_REFUSE(D64_BAD_LINK, 17, 2, 0);
    two_files();
    set_link(image, 17, 2, TRACKS + 1, 0); /* off the disk */
    ALL_REFUSE(D64_BAD_LINK, 17, 2, 0);
    two_files();
    set_link(image, 17, 2, 18, 0); /* the map's sector */
    ALL_REFUSE(D64_OWNED, 17, 2, 0);
}

static void directories_that_go_wrong(void)
{
    two_files();
    set_link(image, 18, 1, 18, 0);
    ALL_REFUSE(D64_BAD_LINK, 18, 1, 255);
    EXPECT(list(sizeof out), D64_BAD_LINK);
    EXPECT_BLOCK(18, 1, 255, 0, 0);
    set_link(image, 18, 1, 18, 1);
    ALL_REFUSE(D64_OWNED, 18, 1, 255);
    EXPECT(list(sizeof out), D64_OWNED);
    EXPECT_BLOCK(18, 1, 255, 0, 0);
}

static void slots_that_go_wrong(void)
{
    uint8_t *second = sector_at(image, 18, 1) + SLOT_BYTES;
    two_files();
    second[2] = 0x84;
    ALL_REFUSE(D64_WRONG_KIND, 18, 1, 1);
    EXPECT(list(sizeof out), D64_WRONG_KIND);
    EXPECT_BLOCK(18, 1, 1, 0, 0);
    two_files();
    second[5] = PAD;
    ALL_REFUSE(D64_WRONG_NAME, 18, 1, 1);
    EXPECT(list(0), D64_WRONG_NAME);
    EXPECT_BLOCK(18, 1, 1, 0, 0);
    two_files();
    put_name(second + 5, "ONE");
    ALL_REFUSE(D64_SAME_NAME, 18, 1, 1);
    EXPECT(list(sizeof out), D64_SAME_NAME);
    EXPECT_BLOCK(18, 1, 1, 0, 0);
    two_files();
    second[30]++;
    ALL_REFUSE(D64_WRONG_COUNT, 18, 1, 1);
    EXPECT(list(sizeof out), D64_DONE);
}

static void maps_that_go_wrong(void)
{
    two_files();
    map_entry(image, 35)[3] &= 0xFE; /* sector 16, the last of track 35, which is free */
    ALL_REFUSE(D64_WRONG_MAP, 35, 16, 255);
    map_entry(image, 1)[0]--; /* only the count is wrong */
    ALL_REFUSE(D64_WRONG_MAP, 1, 255, 255);
    EXPECT(list(sizeof out), D64_DONE);
}

/* Entries of two_files, at both ends of the tracks of 21, 19, 18 and 17 sectors, and the bits past the last sector. */
static const struct ends {
    int track;
    uint8_t entry[4];
    int spare, spare_bits;
} ends[] = {
    {1, {0x15, 0xFF, 0xFF, 0x1F}, 0xE0, 3},  {17, {0x0F, 0xC0, 0xFF, 0x1F}, 0xE0, 3},
    {18, {0x11, 0xFC, 0xFF, 0x07}, 0xF8, 5}, {24, {0x13, 0xFF, 0xFF, 0x07}, 0xF8, 5},
    {25, {0x12, 0xFF, 0xFF, 0x03}, 0xFC, 6}, {30, {0x12, 0xFF, 0xFF, 0x03}, 0xFC, 6},
    {31, {0x11, 0xFF, 0xFF, 0x01}, 0xFE, 7}, {35, {0x11, 0xFF, 0xFF, 0x01}, 0xFE, 7},
};

/*
 * With these bits the disk is accepted, read and listed. With a count that counts them, or the last sector's bit wrong,
 * it is refused; that sector is named, and no bit past it.
 */
static void with_spare(const struct ends *end, int bits, int counted)
{
    const int own = end->entry[3], last = own - own / 2, sector = sectors_of(end->track) - 1;
    uint8_t *entry = map_entry(image, end->track);
    entry[3] = (uint8_t)(own | bits);
    EXPECT(check(), D64_DONE);
    EXPECT_NOWHERE();
    EXPECT(read_file("TWO", 600), D64_DONE);
    EXPECT_BLOCK(0, 0, 255, 600, 3);
    EXPECT(list(sizeof out), D64_DONE);
    EXPECT(memcmp(out + 37 + 2 * 43, BY_TRACKS("0292\n", "02E7\n"), 5), 0);
    entry[0] = (uint8_t)(end->entry[0] + counted);
    ALL_REFUSE(D64_WRONG_MAP, end->track, 255, 255);
    entry[0] = end->entry[0];
    entry[3] = (uint8_t)((own - last) | bits);
    ALL_REFUSE(D64_WRONG_MAP, end->track, sector, 255);
    entry[0]--;
    ALL_REFUSE(D64_WRONG_MAP, end->track, sector, 255);
    memcpy(entry, end->entry, 4);
}

static void bits_past_the_last_sector(void)
{
    two_files();
    for (size_t i = 0; i < sizeof ends / sizeof *ends; i++) {
        EXPECT(memcmp(map_entry(image, ends[i].track), ends[i].entry, 4), 0);
        with_spare(&ends[i], ends[i].spare, ends[i].spare_bits);
        for (int bit = 0x80; (bit & ends[i].spare) != 0; bit /= 2)
            with_spare(&ends[i], bit, 1);
    }
    /* document 000's track */
    memcpy(map_entry(image, 2), "\x15\xFF\xFF\xFF", 4);
    EXPECT(check(), D64_DONE);
    memcpy(map_entry(image, 2), "\x18\xFF\xFF\xFF", 4);
    ALL_REFUSE(D64_WRONG_MAP, 2, 255, 255);
}

static void sizes(void)
{
    static uint8_t long_image[IMAGE_BYTES + 1];
    code_disk();
    memcpy(long_image, image, sizeof image);
    EXPECT(d64_check(LAYOUT, image, sizeof image - 1, block, sizeof block), D64_WRONG_SIZE);
    EXPECT(d64_check(LAYOUT, long_image, sizeof long_image, block, sizeof block), D64_WRONG_SIZE);
    EXPECT_NOWHERE();
    /* the size comes before the name */
    EXPECT(d64_read(LAYOUT, image, 1, NULL, 0, out, sizeof out, block, sizeof block), D64_WRONG_SIZE);
    /* track 18 is asked for, not the image */
    EXPECT(d64_listing(LAYOUT, image, sizeof image, out, sizeof out, block, sizeof block), D64_WRONG_SIZE);
    EXPECT_NOWHERE();
}

static void blocks_of_other_sizes(void)
{
    uint8_t wide[D64_BLOCK_BYTES + 1];
    static const uint8_t name[4] = {'C', 'O', 'D', 'E'};
    code_disk();
    memset(wide, 0x55, sizeof wide);
    fill_out(0xEE);
    for (size_t size = 0; size <= sizeof wide; size++) {
        if (size == D64_BLOCK_BYTES)
            continue;
        EXPECT(d64_check(LAYOUT, image, 0, wide, size), D64_SHORT);
        EXPECT(d64_read(LAYOUT, image, sizeof image, name, sizeof name, out, sizeof out, wide, size), D64_SHORT);
        EXPECT(d64_tell(LAYOUT, image, sizeof image, 0, out, sizeof out, wide, size), D64_SHORT);
        EXPECT(d64_listing(LAYOUT, image + D64_TRACK18_OFFSET, D64_TRACK18_BYTES, out, sizeof out, wide, size), D64_SHORT);
    }
    for (size_t i = 0; i < sizeof wide; i++)
        EXPECT(wide[i], 0x55);
    EXPECT(is_filled(0, 0xEE), 1);
}

static void null_is_an_empty_slice(void)
{
    struct hand hand = code_disk();
    add_file(image, &hand, 0x82, "NONE", 0);
    EXPECT(d64_check(LAYOUT, NULL, 0, block, sizeof block), D64_WRONG_SIZE);
    EXPECT_NOWHERE();
    EXPECT(d64_check(LAYOUT, image, sizeof image, NULL, 0), D64_SHORT);
    EXPECT(d64_check(LAYOUT, NULL, 0, NULL, 0), D64_SHORT);
    EXPECT(d64_read(LAYOUT, NULL, 0, NULL, 0, NULL, 0, block, sizeof block), D64_WRONG_SIZE);
    EXPECT(d64_read(LAYOUT, image, sizeof image, NULL, 0, NULL, 0, block, sizeof block), D64_BAD_NAME);
    EXPECT_NOWHERE();
    EXPECT(d64_read(LAYOUT, image, sizeof image, (const uint8_t *)"CODE", 4, NULL, 0, block, sizeof block), D64_SHORT);
    EXPECT_NOWHERE();
    EXPECT(d64_read(LAYOUT, image, sizeof image, (const uint8_t *)"NONE", 4, NULL, 0, block, sizeof block), D64_DONE);
    EXPECT_BLOCK(0, 0, 255, 0, 1);
    EXPECT(d64_read(LAYOUT, NULL, 0, NULL, 0, NULL, 0, NULL, 0), D64_SHORT);
    EXPECT(d64_tell(LAYOUT, image, sizeof image, 0, NULL, 0, block, sizeof block), D64_SHORT);
    EXPECT(d64_tell(LAYOUT, NULL, 0, 0, NULL, 0, block, sizeof block), D64_WRONG_SIZE);
    EXPECT(d64_tell(LAYOUT, NULL, 0, 0, NULL, 0, NULL, 0), D64_SHORT);
    EXPECT(d64_listing(LAYOUT, NULL, 0, NULL, 0, block, sizeof block), D64_WRONG_SIZE);
    EXPECT_NOWHERE();
    EXPECT(d64_listing(LAYOUT, image + D64_TRACK18_OFFSET, D64_TRACK18_BYTES, NULL, 0, block, sizeof block), D64_SHORT);
    EXPECT_NOWHERE();
    EXPECT(d64_listing(LAYOUT, NULL, 0, NULL, 0, NULL, 0), D64_SHORT);
}

int main(void)
{
    constants();
    a_formatted_disk();
    a_file_is_read();
    a_short_output_is_left();
    names_asked_for();
    a_file_is_told();
    the_whole_listing();
    the_longest_listing();
    the_largest_file();
    the_last_byte_is_not_counted();
    the_link_in_18_0_is_not_trusted();
    chains_that_go_wrong();
    directories_that_go_wrong();
    slots_that_go_wrong();
    maps_that_go_wrong();
    bits_past_the_last_sector();
    sizes();
    blocks_of_other_sizes();
    null_is_an_empty_slice();
    printf("header_test: %d comparisons\n", tests);
    return 0;
}
