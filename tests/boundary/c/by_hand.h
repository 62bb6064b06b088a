/* Disk images written by hand, byte by byte as the layout says, for the tests in C. Shares nothing with the library. */
#ifndef BY_HAND_H
#define BY_HAND_H

#include <stddef.h>
#include <stdint.h>
#include <string.h>

#include "d64.h"

#define SECTOR_BYTES 256
#define DATA_BYTES 254 /* of a sector, after its link */
#define SLOT_BYTES 32

/* The layout that a test is built for (-DLAYOUT=1), and what it fixes. */
#ifndef LAYOUT
#define LAYOUT D64_LAYOUT_35
#endif
#if LAYOUT == D64_LAYOUT_35
#define TRACKS 35
#define IMAGE_BYTES 174848
#define BY_TRACKS(on_35, on_40) on_35
#else
#define TRACKS 40
#define IMAGE_BYTES 196608
#define BY_TRACKS(on_35, on_40) on_40
#endif
#define EXTRA_ENTRIES (LAYOUT == D64_LAYOUT_SPEEDDOS ? 0xC0 : 0xAC) /* in 18/0, those of tracks 36 to 40 */
#define ROOM (IMAGE_BYTES / SECTOR_BYTES - 19)                       /* free sectors of a fresh disk off track 18 */
#define MOST_BYTES ((size_t)DATA_BYTES * ROOM)                       /* of a file on it */
#define PAD 0xA0

static int sectors_of(int track)
{
    return track < 18 ? 21 : track < 25 ? 19 : track < 31 ? 18 : 17;
}

/* The first byte of a sector. */
static uint8_t *sector_at(uint8_t *image, int track, int sector)
{
    size_t number = (size_t)sector;
    for (int before = 1; before < track; before++)
        number += (size_t)sectors_of(before);
    return image + SECTOR_BYTES * number;
}

static void set_link(uint8_t *image, int track, int sector, int to_track, int to_sector)
{
    uint8_t *link = sector_at(image, track, sector);
    link[0] = (uint8_t)to_track;
    link[1] = (uint8_t)to_sector;
}

/* The map entry of a track: the count of free sectors, then three bytes of bits. */
static uint8_t *map_entry(uint8_t *image, int track)
{
    return sector_at(image, 18, 0) + (track > 35 ? EXTRA_ENTRIES + 4 * (track - 36) : 4 * track);
}

static void mark_used(uint8_t *image, int track, int sector)
{
    uint8_t *entry = map_entry(image, track);
    entry[0]--;
    entry[1 + sector / 8] &= (uint8_t)~(1u << (sector % 8));
}

static void put_name(uint8_t *to, const char *name)
{
    memset(to, PAD, 16);
    memcpy(to, name, strlen(name));
}

/* A disk without files. */
static void format_by_hand(uint8_t *image, const char *name, int id1, int id2)
{
    static const uint8_t head[4] = {0x12, 0x01, 0x41, 0x00};
    uint8_t *map = sector_at(image, 18, 0);
    memset(image, 0, IMAGE_BYTES);
    memcpy(map, head, sizeof head);
    for (int track = 1; track <= TRACKS; track++) {
        uint8_t *entry = map_entry(image, track);
        uint32_t bits = (1u << sectors_of(track)) - 1;
        entry[0] = (uint8_t)sectors_of(track);
        for (int byte = 0; byte < 3; byte++)
            entry[1 + byte] = (uint8_t)(bits >> (8 * byte));
    }
    mark_used(image, 18, 0);
    mark_used(image, 18, 1);
    memset(map + 0x90, PAD, 0xAB - 0x90);
    put_name(map + 0x90, name);
    map[0xA2] = (uint8_t)id1;
    map[0xA3] = (uint8_t)id2;
    map[0xA5] = 0x32;
    map[0xA6] = 0x41;
    set_link(image, 18, 1, 0, 0xFF);
}

/* The next sector that files take: tracks 17 down to 1, then 19 up to the last, sectors upward. */
static void next_sector(int *track, int *sector)
{
    if (++*sector < sectors_of(*track))
        return;
    *sector = 0;
    *track = *track == 1 ? 19 : *track < 18 ? *track - 1 : *track + 1;
}

/* Where the next file goes; {17, 0, 0} on a fresh disk. */
struct hand {
    int track, sector, slot;
};

/* The directory entry of a slot; a directory sector that isn't there yet joins the directory, 18/1, 18/2 and so on. */
static uint8_t *slot_at(uint8_t *image, int slot)
{
    int sector = 1 + slot / 8;
    if (slot % 8 == 0 && sector > 1) {
        set_link(image, 18, sector - 1, 18, sector);
        set_link(image, 18, sector, 0, 0xFF);
        mark_used(image, 18, sector);
    }
    return sector_at(image, 18, sector) + SLOT_BYTES * (slot % 8);
}

/* Byte number 'at' of the files written by hand. */
static uint8_t file_byte(size_t at)
{
    return (uint8_t)(at * 7 + at / 251 + 1);
}

/* Writes the sectors of a file and gives how many there are. */
static int put_chain(uint8_t *image, struct hand *hand, size_t length)
{
    int count = 0;
    size_t done = 0;
    for (;;) {
        int track = hand->track, sector = hand->sector;
        uint8_t *bytes = sector_at(image, track, sector);
        size_t part = length - done < DATA_BYTES ? length - done : DATA_BYTES;
        for (size_t i = 0; i < part; i++)
            bytes[2 + i] = file_byte(done + i);
        done += part;
        count++;
        mark_used(image, track, sector);
        next_sector(&hand->track, &hand->sector);
        if (done == length) {
            set_link(image, track, sector, 0, (int)part + 1);
            return count;
        }
        set_link(image, track, sector, hand->track, hand->sector);
    }
}

/* Adds a file of 'length' bytes in the next slot. */
static void add_file(uint8_t *image, struct hand *hand, int type, const char *name, size_t length)
{
    uint8_t *slot = slot_at(image, hand->slot++);
    int count;
    slot[2] = (uint8_t)type;
    slot[3] = (uint8_t)hand->track;
    slot[4] = (uint8_t)hand->sector;
    put_name(slot + 5, name);
    count = put_chain(image, hand, length);
    slot[30] = (uint8_t)count;
    slot[31] = (uint8_t)(count >> 8);
}

/* F000, F001 and so on: the name of the file in a slot. */
static void name_file(char name[5], int slot)
{
    memcpy(name, "F000", 5);
    name[1] = (char)('0' + slot / 100);
    name[2] = (char)('0' + slot / 10 % 10);
    name[3] = (char)('0' + slot % 10);
}

/* Adds files of 'length' bytes, named by their slots, until so many slots are taken. */
static void add_files(uint8_t *image, struct hand *hand, int slots, size_t length)
{
    while (hand->slot < slots) {
        char name[5];
        name_file(name, hand->slot);
        add_file(image, hand, 0x82, name, length);
    }
}

#endif
