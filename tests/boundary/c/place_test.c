/*
 * The place of answer 8, D64_WRONG_MAP, on disks written by hand: the lowest of the track's own sectors whose bit is
 * wrong, and 255 only if all these bits are right. Every call that checks gives it, and d64_listing() never. Ends with
 * status 1 at the first difference. Compiled as C11 and as C++.
 */
#include "expect.h"

#define COUNT(table) (sizeof(table) / sizeof *(table))

/* The listing of two_files. */
static const char text[] = "434F444553A0A0A0A0A0A0A0A0A0A0A03031\n"
                           "8111004F4E45A0A0A0A0A0A0A0A0A0A0A0A0A00300\n"
                           "81110354574FA0A0A0A0A0A0A0A0A0A0A0A0A00300\n"
                           BY_TRACKS("0292\n", "02E7\n");

/* ONE is 17/0 to 17/2, TWO is 17/3 to 17/5. */
static struct hand two_files(void)
{
    struct hand hand = {17, 0, 0};
    format_by_hand(image, "CODES", 0x30, 0x31);
    add_file(image, &hand, 0x81, "ONE", 600);
    add_file(image, &hand, 0x81, "TWO", 600);
    EXPECT(check(), D64_DONE);
    EXPECT_NOWHERE();
    return hand;
}

static uint32_t store(const char *name, uint32_t kind, size_t length)
{
    static const uint8_t data[200000] = {0};
    return d64_store(LAYOUT, image, sizeof image, (const uint8_t *)name, strlen(name), kind, data, length, block,
                     sizeof block);
}

static uint32_t scratch(const char *name)
{
    return d64_scratch(LAYOUT, image, sizeof image, (const uint8_t *)name, strlen(name), block, sizeof block);
}

static uint32_t tell(size_t position, size_t entry_len)
{
    return d64_tell(LAYOUT, image, sizeof image, position, out, entry_len, block, sizeof block);
}

/* A call that has just answered 'number': it was 8, at this place, and it wrote nothing. */
static void expect_eight(uint32_t number, int track, int sector, const char *call, int line)
{
    expect(number, D64_WRONG_MAP, call, __FILE__, line);
    expect_block(track, sector, 255, 0, 0, __FILE__, line);
    expect(memcmp(before, image, sizeof image), 0, "the image's change", __FILE__, line);
    for (size_t i = 0; i < 700; i++)
        expect(out[i], 0xEE, "a byte of the output", __FILE__, line);
}

#define EXPECT_EIGHT(call, track, sector)           \
    do {                                            \
        memcpy(before, image, sizeof image);        \
        memset(out, 0xEE, sizeof out);              \
        expect_eight(call, track, sector, #call, __LINE__); \
    } while (0)

/* Every call that checks gives 8 at this place. */
static void all_give(int track, int sector)
{
    EXPECT_EIGHT(check(), track, sector);
    EXPECT_EIGHT(read_file("ONE", sizeof out), track, sector);
    EXPECT_EIGHT(store("NEW", 1, 300), track, sector);
    EXPECT_EIGHT(scratch("TWO"), track, sector);
    EXPECT_EIGHT(tell(0, D64_ENTRY_BYTES), track, sector);
}

/* The listing is that of the disk before its bits were spoilt. */
static void listing_is_the_same(void)
{
    EXPECT(list(D64_LISTING_BYTES), D64_DONE);
    EXPECT_BLOCK(0, 0, 255, (long)sizeof text - 1, 0);
    EXPECT(memcmp(out, text, sizeof text - 1), 0);
}

struct row {
    int track;
    uint8_t entry[4];
    int sector;
};

/* The first and the last sector of tracks at both ends of those of 21, 19, 18 and 17; the count is as it was. */
static const struct row one_bit[] = {
    {1, {0x15, 0xFE, 0xFF, 0x1F}, 0},  {1, {0x15, 0xFF, 0xFF, 0x0F}, 20},
    {17, {0x0F, 0xC1, 0xFF, 0x1F}, 0}, {17, {0x0F, 0xC0, 0xFF, 0x0F}, 20},
    {18, {0x11, 0xFD, 0xFF, 0x07}, 0}, {18, {0x11, 0xFC, 0xFF, 0x03}, 18},
    {24, {0x13, 0xFE, 0xFF, 0x07}, 0}, {24, {0x13, 0xFF, 0xFF, 0x03}, 18},
    {25, {0x12, 0xFE, 0xFF, 0x03}, 0}, {25, {0x12, 0xFF, 0xFF, 0x01}, 17},
    {30, {0x12, 0xFE, 0xFF, 0x03}, 0}, {30, {0x12, 0xFF, 0xFF, 0x01}, 17},
    {31, {0x11, 0xFE, 0xFF, 0x01}, 0}, {31, {0x11, 0xFF, 0xFF, 0x00}, 16},
    {35, {0x11, 0xFE, 0xFF, 0x01}, 0}, {35, {0x11, 0xFF, 0xFF, 0x00}, 16},
};

/* Several wrong bits: the lowest is named, whether it is marked free wrongly or used wrongly. */
static const struct row some_bits[] = {
    {1, {0x15, 0xF7, 0xFD, 0x1F}, 3},  {1, {0x15, 0xFF, 0x7F, 0x0F}, 15}, {17, {0x0F, 0xE0, 0xFF, 0x1E}, 5},
    {17, {0x0F, 0x3F, 0xFF, 0x1F}, 0}, {17, {0x0F, 0x80, 0xFE, 0x1F}, 6}, {18, {0x11, 0xFE, 0xFF, 0x03}, 1},
    {25, {0x12, 0x7F, 0xFF, 0x01}, 7}, {35, {0x11, 0x00, 0x00, 0x00}, 0},
};

/* Wrong bits beside bits past the last sector, which are never named. */
static const struct row beside_spare[] = {
    {1, {0x15, 0xFF, 0xFF, 0xEF}, 20},  {17, {0x0F, 0xC0, 0xFF, 0x2F}, 20}, {18, {0x11, 0xFC, 0xFF, 0xFB}, 18},
    {24, {0x13, 0xFF, 0xFE, 0x87}, 8},  {25, {0x12, 0xFF, 0xFF, 0xFD}, 17}, {30, {0x12, 0xFF, 0xFF, 0x05}, 17},
    {31, {0x11, 0xFF, 0xFF, 0xFE}, 16}, {35, {0x11, 0xBF, 0xFF, 0x81}, 6},
};

/* A wrong count besides: the bit is named all the same. */
static const struct row bit_and_count[] = {
    {1, {0x14, 0xFF, 0x7F, 0x1F}, 15},  {1, {0x00, 0xFF, 0xFF, 0x1E}, 16},  {17, {0x10, 0xE0, 0xFF, 0x1F}, 5},
    {18, {0x12, 0xFD, 0xFF, 0x07}, 0},  {24, {0x12, 0xFF, 0xFF, 0x03}, 18}, {30, {0xFF, 0xFF, 0xFF, 0x01}, 17},
    {35, {0x10, 0xFF, 0xFF, 0x00}, 16}, {1, {0x12, 0xFF, 0xF9, 0x17}, 9}, /* document 01's 9, 10 and 19 */
};

/* Only the count is wrong, also where it counts bits past the last sector. */
static const struct row count_alone[] = {
    {1, {0x14, 0xFF, 0xFF, 0x1F}, 255},  {17, {0x10, 0xC0, 0xFF, 0x1F}, 255}, {18, {0x00, 0xFC, 0xFF, 0x07}, 255},
    {24, {0x18, 0xFF, 0xFF, 0xFF}, 255}, {25, {0x13, 0xFF, 0xFF, 0x07}, 255}, {30, {0x11, 0xFF, 0xFF, 0xFF}, 255},
    {31, {0x12, 0xFF, 0xFF, 0x03}, 255}, {35, {0xFF, 0xFF, 0xFF, 0x01}, 255},
};

static void rows_give_their_sector(const struct row *rows, size_t count, int bits_only)
{
    for (size_t i = 0; i < count; i++) {
        two_files();
        memcpy(map_entry(image, rows[i].track), rows[i].entry, 4);
        all_give(rows[i].track, rows[i].sector);
        if (bits_only)
            listing_is_the_same();
    }
}

static void flip(int track, int bit)
{
    map_entry(image, track)[1 + bit / 8] ^= (uint8_t)(1 << (bit % 8));
}

/* Each sector of the disk, and no other bit of the map. */
static void each_bit_alone(void)
{
    two_files();
    for (int track = 1; track <= TRACKS; track++) {
        for (int bit = 0; bit < 24; bit++) {
            flip(track, bit);
            if (bit < sectors_of(track)) {
                EXPECT(check(), D64_WRONG_MAP);
                EXPECT_BLOCK(track, bit, 255, 0, 0);
            } else {
                EXPECT(check(), D64_DONE);
                EXPECT_NOWHERE();
            }
            flip(track, bit);
        }
    }
    listing_is_the_same();
}

/* The lower track comes first, though the other one's sector is lower or its bit is wrong and not its count. */
static void of_two_tracks_the_lower(void)
{
    two_files();
    flip(35, 0);
    flip(20, 18);
    all_give(20, 18);
    map_entry(image, 19)[0]--;
    all_give(19, 255);
    flip(2, 22);
    all_give(19, 255);
    flip(1, 20);
    all_give(1, 20);
}

/* Of several refusals 8 comes before 11 to 16. */
static void before_the_later_answers(void)
{
    struct hand hand = two_files();
    flip(1, 7);
    EXPECT_EIGHT(store("ONE", 1, 300), 1, 7);
    EXPECT_EIGHT(store("NEW", 1, MOST_BYTES + 1), 1, 7);
    EXPECT_EIGHT(read_file("THREE", sizeof out), 1, 7);
    EXPECT_EIGHT(scratch("THREE"), 1, 7);
    EXPECT_EIGHT(tell(2, D64_ENTRY_BYTES), 1, 7);
    EXPECT_EIGHT(read_file("ONE", 599), 1, 7);
    EXPECT_EIGHT(tell(0, D64_ENTRY_BYTES - 1), 1, 7);
    sector_at(image, 18, 0)[2] = 0x42;
    EXPECT_EIGHT(store("NEW", 1, 300), 1, 7);
    EXPECT_EIGHT(scratch("ONE"), 1, 7);
    flip(1, 7);
    EXPECT(store("NEW", 1, 300), D64_READ_ONLY);
    EXPECT_NOWHERE();
    sector_at(image, 18, 0)[2] = 0x41;
    add_files(image, &hand, 144, 10);
    EXPECT(store("NEW", 1, 300), D64_DIRECTORY_FULL);
    EXPECT_NOWHERE();
    flip(18, 18);
    EXPECT_EIGHT(store("NEW", 1, 300), 18, 18);
}

/* 1, 9, 10 and the faults met earlier in the check come before 8, with their own places. */
static void after_the_earlier_answers(void)
{
    two_files();
    flip(1, 0);
    EXPECT(d64_check(LAYOUT, image, sizeof image - 1, block, sizeof block), D64_WRONG_SIZE);
    EXPECT_NOWHERE();
    EXPECT(read_file("", sizeof out), D64_BAD_NAME);
    EXPECT_NOWHERE();
    EXPECT(store("NEW", 3, 300), D64_BAD_KIND);
    EXPECT_NOWHERE();
    sector_at(image, 18, 1)[30]++;
    EXPECT(check(), D64_WRONG_COUNT);
    EXPECT_BLOCK(18, 1, 0, 0, 0);
    set_link(image, 17, 2, 17, 2);
    EXPECT(scratch("ONE"), D64_OWNED);
    EXPECT_BLOCK(17, 2, 0, 0, 0);
    set_link(image, 18, 1, 18, 0);
    EXPECT(tell(0, D64_ENTRY_BYTES), D64_BAD_LINK);
    EXPECT_BLOCK(18, 1, 255, 0, 0);
}

int main(void)
{
    two_files();
    listing_is_the_same();
    rows_give_their_sector(one_bit, COUNT(one_bit), 1);
    rows_give_their_sector(some_bits, COUNT(some_bits), 1);
    rows_give_their_sector(beside_spare, COUNT(beside_spare), 1);
    rows_give_their_sector(bit_and_count, COUNT(bit_and_count), 0);
    rows_give_their_sector(count_alone, COUNT(count_alone), 0);
    each_bit_alone();
    of_two_tracks_the_lower();
    before_the_later_answers();
    after_the_earlier_answers();
    printf("place_test: %d comparisons\n", tests);
    return 0;
}
