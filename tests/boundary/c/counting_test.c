/*
 * Free sectors and their counts on disks written by hand: chains that leave a track and come back, files on track 18,
 * every number of free sectors on every track, bitmaps of every sort, and what a store takes of them. What is owed is
 * worked out here by plain loops over the sectors that the test has laid. Ends with status 1 at the first difference.
 * Compiled as C11 and as C++.
 */
#include "expect.h"

#define COUNT(table) (sizeof(table) / sizeof *(table))
#define MOST (IMAGE_BYTES / SECTOR_BYTES)

struct place {
    int track, sector;
};

/* The sectors that have an owner, and the chain that is being laid. */
static char used[TRACKS + 1][24];
static struct place chain[MOST];
static int links;

static void start(void)
{
    format_by_hand(image, "COUNTS", 0x30, 0x31);
    memset(used, 0, sizeof used);
    used[18][0] = used[18][1] = 1;
    links = 0;
}

/* Puts a sector at the end of the chain, if it is on the disk and free. */
static void lead_to(int track, int sector)
{
    if (sector >= sectors_of(track) || used[track][sector])
        return;
    used[track][sector] = 1;
    chain[links].track = track;
    chain[links++].sector = sector;
}

/* Lays the chain, where there is one, as a file of full sectors in a slot of 18/1. */
static void lay(int slot, const char *name)
{
    uint8_t *entry = slot_at(image, slot);
    if (links == 0)
        return;
    entry[2] = 0x82;
    entry[3] = (uint8_t)chain[0].track;
    entry[4] = (uint8_t)chain[0].sector;
    put_name(entry + 5, name);
    entry[30] = (uint8_t)links;
    entry[31] = (uint8_t)(links >> 8);
    for (int i = 0; i < links; i++) {
        int track = chain[i].track, sector = chain[i].sector;
        memset(sector_at(image, track, sector), i + 1, SECTOR_BYTES);
        if (i + 1 < links)
            set_link(image, track, sector, chain[i + 1].track, chain[i + 1].sector);
        else
            set_link(image, track, sector, 0, 255);
        mark_used(image, track, sector);
    }
}

/* A bit of a track's entry. */
static int is_marked_free(int track, int bit)
{
    return map_entry(image, track)[1 + bit / 8] >> (bit % 8) & 1;
}

/* The first track with a wrong bit or count, one past the last if there is none, and its lowest wrong sector or 255. */
static struct place owed_place(void)
{
    struct place place = {1, 255};
    for (; place.track <= TRACKS; place.track++) {
        int free_sectors = 0;
        for (int sector = sectors_of(place.track) - 1; sector >= 0; sector--) {
            free_sectors += !used[place.track][sector];
            if (is_marked_free(place.track, sector) == used[place.track][sector])
                place.sector = sector;
        }
        if (place.sector != 255 || map_entry(image, place.track)[0] != free_sectors)
            break;
    }
    return place;
}

/* The check says what the loops say; gives whether the image is accepted. */
static int checked(int line)
{
    struct place place = owed_place();
    int accepted = place.track > TRACKS;
    expect(check(), accepted ? D64_DONE : D64_WRONG_MAP, "check()", __FILE__, line);
    expect_block(accepted ? 0 : place.track, accepted ? 0 : place.sector, 255, 0, 0, __FILE__, line);
    return accepted;
}

#define ACCEPTED() EXPECT(checked(__LINE__), 1)
#define REFUSED() EXPECT(checked(__LINE__), 0)

static void flip(int track, int bit)
{
    map_entry(image, track)[1 + bit / 8] ^= (uint8_t)(1 << (bit % 8));
}

/* Each bit of a track's entry is flipped alone: that of a sector is named, and no other is seen. */
static void each_bit(int track)
{
    for (int bit = 0; bit < 24; bit++) {
        flip(track, bit);
        EXPECT(checked(__LINE__), bit >= sectors_of(track));
        flip(track, bit);
    }
}

/* The file is read along the chain: each sector holds its own number. */
static void reads_as_laid(const char *name)
{
    EXPECT(read_file(name, sizeof out), D64_DONE);
    EXPECT_BLOCK(0, 0, 255, 254L * links, links);
    for (int i = 0; i < links; i++)
        for (int byte = 0; byte < DATA_BYTES; byte++)
            expect(out[DATA_BYTES * i + byte], (uint8_t)(i + 1), "a byte read", __FILE__, __LINE__);
}

static uint32_t store(const char *name, size_t length)
{
    static uint8_t data[MOST * DATA_BYTES];
    memset(data, 0x77, sizeof data);
    return d64_store(LAYOUT, image, sizeof image, (const uint8_t *)name, strlen(name), 1, data, length, block, sizeof block);
}

static uint32_t scratch(const char *name)
{
    return d64_scratch(LAYOUT, image, sizeof image, (const uint8_t *)name, strlen(name), block, sizeof block);
}

/* The other calls find the image sound too: it is told, stored to, and as it was once that is scratched. */
static void serves_all_calls(const char *name)
{
    EXPECT(d64_tell(LAYOUT, image, sizeof image, 0, out, D64_ENTRY_BYTES, block, sizeof block), D64_DONE);
    EXPECT_NOWHERE();
    EXPECT(memcmp(out + 1, name, strlen(name)), 0);
    memcpy(before, image, sizeof image);
    EXPECT(store("NEW", 300), D64_DONE);
    EXPECT_BLOCK(0, 0, 255, 300, 2);
    EXPECT(scratch("NEW"), D64_DONE);
    EXPECT_BLOCK(0, 0, 255, 300, 2);
    EXPECT(memcmp(before, image, sizeof image), 0);
}

/* Scratched, the only file leaves a disk as it was before. */
static void scratched_whole(const char *name)
{
    EXPECT(scratch(name), D64_DONE);
    EXPECT_BLOCK(0, 0, 255, 254L * links, links);
    memcpy(before, image, sizeof image);
    start();
    EXPECT(memcmp(before, image, sizeof image), 0);
}

/*
 * Each link in turn leads off the disk or to an owned sector, that of the chain, of the directory or another: the fault
 * is at the link, however many tracks lie behind.
 */
static void links_are_refused(int slot, struct place other)
{
    for (int i = 0; i < links; i++) {
        int track = chain[i].track, sector = chain[i].sector;
        uint8_t *link = sector_at(image, track, sector), old[2] = {link[0], link[1]};
        const struct place to[] = {chain[i], chain[i / 2], i > 1 ? chain[i - 2] : other, chain[0], other, {18, 0},
                                   {18, 1}, {track, sectors_of(track)}, {0, 0}, {TRACKS + 1, 0}};
        for (size_t at = 0; at < COUNT(to); at++) {
            set_link(image, track, sector, to[at].track, to[at].sector);
            EXPECT(check(), at < 7 ? D64_OWNED : D64_BAD_LINK);
            EXPECT_BLOCK(track, sector, slot, 0, 0);
        }
        set_link(image, track, sector, old[0], old[1]);
    }
}

/* So many sectors of a track from the one with this number on, upward or downward. */
static void lead_along(int track, int from, int sectors, int down)
{
    for (int at = from; at < from + sectors && at < sectors_of(track); at++)
        lead_to(track, down ? sectors_of(track) - 1 - at : at);
}

/* From each track to the next and back, the last and 1 among them, one to three sectors at a time, upward and downward. */
static void zigzags(void)
{
    for (int track = 1; track <= TRACKS; track++) {
        for (int step = 1; step <= 3; step++) {
            int next = track % TRACKS + 1;
            start();
            for (int from = 0; from < 21; from += step) {
                lead_along(track, from, step, 0);
                lead_along(next, from, step, 1);
            }
            lay(0, "ZIGZAG");
            ACCEPTED();
            each_bit(track);
            each_bit(next);
            if (step == 1)
                links_are_refused(0, chain[0]);
            reads_as_laid("ZIGZAG");
            serves_all_calls("ZIGZAG");
            scratched_whole("ZIGZAG");
        }
    }
}

/* One chain of all sectors that a file may have, each on another track than the one before; then it goes downward. */
static void rounds(void)
{
    for (int down = 0; down < 2; down++) {
        start();
        for (int sector = 0; sector < 21; sector++)
            for (int track = 1; track <= TRACKS; track++)
                lead_to(down ? TRACKS + 1 - track : track, down ? 20 - sector : sector);
        lay(0, "ROUNDS");
        EXPECT(links, MOST - 2);
        ACCEPTED();
        for (int track = 1; track <= TRACKS; track++)
            each_bit(track);
        reads_as_laid("ROUNDS");
        scratched_whole("ROUNDS");
    }
}

/* Three files on each track and track 18: even sectors, odd ones, and one that begins and ends on the track. */
static void shared_tracks(void)
{
    for (int track = 1; track <= TRACKS; track++) {
        const struct place even = {track, 2};
        int other = track == 18 ? 19 : 18;
        start();
        for (int file = 0; file < 2; file++, links = 0) {
            for (int sector = file; sector < sectors_of(track) - 3; sector += 2)
                lead_to(track, sector);
            lay(file, file ? "ODD" : "EVEN");
        }
        lead_to(track, sectors_of(track) - 1);
        for (int sector = 2; sector < 5; sector++)
            lead_to(other, sector);
        lead_to(track, sectors_of(track) - 3);
        lay(2, "AROUND");
        ACCEPTED();
        each_bit(track);
        each_bit(other);
        links_are_refused(2, even);
        reads_as_laid("AROUND");
    }
}

/* A directory that goes up and down track 18, and a file between its sectors. */
static void scattered_directory(void)
{
    static const int sectors[] = {1, 10, 4, 18, 2};
    start();
    for (size_t i = 1; i < COUNT(sectors); i++) {
        set_link(image, 18, sectors[i - 1], 18, sectors[i]);
        set_link(image, 18, sectors[i], 0, 255);
        mark_used(image, 18, sectors[i]);
        used[18][sectors[i]] = 1;
    }
    ACCEPTED();
    each_bit(18);
    for (int sector = 2; sector < 19; sector += 3)
        lead_to(18, sector);
    lay(0, "BETWEEN");
    ACCEPTED();
    each_bit(18);
    links_are_refused(0, chain[0]);
    reads_as_laid("BETWEEN");
}

/* Files in house order over all slots of the directory, and the counts of the listing's last line. */
static void many_files(void)
{
    struct hand hand = {17, 0, 0};
    start();
    add_files(image, &hand, 144, 900);
    for (int track = 1; track <= TRACKS; track++)
        for (int sector = 0; sector < sectors_of(track); sector++)
            used[track][sector] = (char)!is_marked_free(track, sector);
    ACCEPTED();
    for (int track = 1; track <= TRACKS; track++)
        each_bit(track);
    map_entry(image, 35)[0] += 2; /* the free sectors less 576, and two that are not there: the listing adds up bytes */
    REFUSED();
    EXPECT(list(D64_LISTING_BYTES), D64_DONE);
    EXPECT_BLOCK(0, 0, 255, 42 + 43L * 144, 0);
    EXPECT(memcmp(out + 37 + 43 * 144, BY_TRACKS("005A\n", "00AF\n"), 5), 0);
}

/* --- Every track: counts and bitmaps ------------------------------------------------------------------------------ */

static int ones_of(uint32_t bits)
{
    int ones = 0;
    for (int bit = 0; bit < 24; bit++)
        ones += (int)(bits >> bit & 1);
    return ones;
}

/* Bitmaps by number: single bytes, every second bit, none, all, one bit, all but one, from a bit on, up to a bit. */
#define BITMAPS (8 + 4 * 24)
static uint32_t bitmap(int number)
{
    static const uint32_t some[8] = {0x0000FF, 0x00FF00, 0xFF0000, 0x555555, 0xAAAAAA, 0x000000, 0xFFFFFF, 0x17F9FF};
    if (number < 8)
        return some[number];
    uint32_t bit = 1u << (number - 8) / 4;
    switch (number % 4) {
    case 0: return bit;
    case 1: return 0xFFFFFF ^ bit;
    case 2: return 0xFFFFFF ^ (bit - 1);
    default: return bit - 1;
    }
}

/* Writes a bitmap as it stands. */
static void put_bits(int track, uint32_t bits)
{
    for (int byte = 0; byte < 3; byte++)
        map_entry(image, track)[1 + byte] = (uint8_t)(bits >> (8 * byte));
}

/* A disk on which a file has the sectors of a track that a bitmap marks used; the rest of the bitmap is written too. */
static void lay_bitmap(int track, uint32_t bits)
{
    start();
    for (int sector = 0; sector < sectors_of(track); sector++)
        if ((bits >> sector & 1) == 0)
            lead_to(track, sector);
    lay(0, "BITS");
    for (int bit = sectors_of(track); bit < 24; bit++)
        if (bits >> bit & 1)
            flip(track, bit);
}

/* Each bitmap where it is right: its count alone is accepted, whatever the bits past the last sector are. */
static void right_bitmaps(void)
{
    static const int off[] = {1, -1, 3, 5, 6, 7, 8, -8, 16, 24, 32, 64, 128};
    for (int track = 1; track <= TRACKS; track++) {
        for (int number = 0; number < BITMAPS; number++) {
            lay_bitmap(track, bitmap(number));
            uint8_t *count = map_entry(image, track), right = *count;
            ACCEPTED();
            for (size_t i = 0; i < COUNT(off); i++) {
                *count = (uint8_t)(right + off[i]);
                REFUSED();
            }
            for (int any = 0; any < 256; any += number < 8 ? 1 : 255) {
                *count = (uint8_t)any;
                EXPECT(checked(__LINE__), any == right);
            }
        }
    }
}

/* Each bitmap in the place of others: the lowest wrong sector is named, whatever the count is. */
static void wrong_bitmaps(void)
{
    for (int track = 1; track <= TRACKS; track++) {
        for (int laid = 0; laid < 8; laid++) {
            lay_bitmap(track, bitmap(laid));
            uint8_t *count = map_entry(image, track), right = *count;
            for (int number = 0; number < BITMAPS; number++) {
                uint32_t bits = bitmap(number), own = bits & ((1u << sectors_of(track)) - 1);
                const int counts[] = {right, ones_of(own), ones_of(bits), sectors_of(track) - ones_of(own), 0, 255};
                put_bits(track, bits);
                for (size_t i = 0; i < COUNT(counts); i++) {
                    *count = (uint8_t)counts[i];
                    checked(__LINE__);
                }
            }
        }
    }
}

/* Two neighbouring tracks have each other's entry: most have as many sectors, and as many of them free. */
static void exchanged_entries(void)
{
    for (int track = 1; track < TRACKS; track++) {
        uint8_t entry[4];
        start();
        for (int sector = 3; sector < 15; sector += 2) {
            lead_to(track, sector);
            lead_to(track + 1, sector + 1);
        }
        lay(0, "BOTH");
        ACCEPTED();
        memcpy(entry, map_entry(image, track), 4);
        memcpy(map_entry(image, track), map_entry(image, track + 1), 4);
        memcpy(map_entry(image, track + 1), entry, 4);
        REFUSED();
        EXPECT(owed_place().track, track);
        EXPECT(owed_place().sector, track == 17 || track == 18 ? 0 : 3);
    }
}

/* --- What a store takes ------------------------------------------------------------------------------------------- */

/* The bitmap of each track's room; those of track 18 are not used. */
static uint32_t room_of[TRACKS + 1];

/* A disk whose only room off track 18 is what these bitmaps mark free; gives the room. */
static int leave_room(void)
{
    int room = 0;
    start();
    for (int track = 1; track <= TRACKS; track++)
        for (int sector = 0; track != 18 && sector < sectors_of(track); sector++)
            if (room_of[track] >> sector & 1)
                room++;
            else
                lead_to(track, sector);
    lay(0, "REST");
    for (int track = 1; track <= TRACKS; track++)
        for (int bit = sectors_of(track); bit < 24; bit++)
            if (room_of[track] >> bit & 1)
                flip(track, bit);
    return room;
}

/* The first k free sectors in house order are taken, and the map follows; the bits past the last sectors stay. */
static void takes_the_first(int k)
{
    struct place here = {17, 0};
    memcpy(before, image, sizeof image);
    EXPECT(store("NEW", DATA_BYTES * (size_t)k), D64_DONE);
    EXPECT_BLOCK(0, 0, 255, 254L * k, k);
    const uint8_t *link = slot_at(image, links > 0) + 3; /* behind the file REST, if there is one */
    for (; k > 0; next_sector(&here.track, &here.sector)) {
        if (used[here.track][here.sector])
            continue;
        EXPECT(link[0], here.track);
        EXPECT(link[1], here.sector);
        link = sector_at(image, here.track, here.sector);
        used[here.track][here.sector] = 1;
        k--;
    }
    EXPECT(link[0], 0);
    EXPECT(link[1], 255);
    ACCEPTED();
    for (int track = 1; track <= TRACKS; track++)
        for (int bit = sectors_of(track); bit < 24; bit++)
            EXPECT(is_marked_free(track, bit), map_entry(before, track)[3] >> (bit % 8) & 1);
}

/* Stores of so many sectors of the room, each on the disk as it was; one sector more does not fit. */
static void stores_in_room(int one)
{
    int room = leave_room();
    const int sizes[] = {1, 2, one - 1, one, one + 1, 2 * one, 2 * one + 1, 300, room - 1, room};
    memcpy(before, image, sizeof image);
    EXPECT(store("NEW", DATA_BYTES * (size_t)room + 1), D64_DISK_FULL);
    EXPECT_NOWHERE();
    EXPECT(memcmp(before, image, sizeof image), 0);
    for (size_t i = 0; i < COUNT(sizes); i++) {
        if (sizes[i] < 1 || sizes[i] > room)
            continue;
        leave_room();
        takes_the_first(sizes[i]);
    }
}

/* On the tracks of a range alone, each with this bitmap. */
static void stores_on(int from, int to, uint32_t bits)
{
    for (int track = 1; track <= TRACKS; track++)
        room_of[track] = track < from || track > to ? 0 : bits;
    stores_in_room(ones_of(bits & 0x1FFFFF));
}

/* Each track alone, several, all; then tracks without room, with one sector, with some and with all in turn. */
static void stores(void)
{
    for (int number = 0; number < BITMAPS; number += number < 8 ? 1 : 5) {
        for (int track = 1; track <= TRACKS; track++)
            if (track != 18)
                stores_on(track, track, bitmap(number));
        stores_on(1, 17, bitmap(number));
        stores_on(16, 20, bitmap(number));
        stores_on(1, TRACKS, bitmap(number));
        for (int track = 1; track <= TRACKS; track++) {
            const uint32_t some[4] = {0, 1u << track % 17, bitmap(number), 0xFFFFFF};
            room_of[track] = some[track % 4];
        }
        stores_in_room(1);
    }
}

int main(void)
{
    zigzags();
    rounds();
    shared_tracks();
    scattered_directory();
    many_files();
    right_bitmaps();
    wrong_bitmaps();
    exchanged_entries();
    stores();
    printf("counting_test: %d comparisons\n", tests);
    return 0;
}
