#include "disk.h"

#include <string.h>

#include "oracle.h"

void disk_start(struct disk *disk, const uint8_t *bytes, size_t len, unsigned place)
{
    disk->len = len < MOST_LENT ? len : MOST_LENT;
    if (disk->len != 0)
        memcpy(disk->owed, bytes, disk->len);
    lend(&disk->lent, bytes, disk->len, place);
}

unsigned last_track(uint32_t layout)
{
    return layout == D64_LAYOUT_35 ? 35 : 40;
}

size_t sectors_of_layout(uint32_t layout)
{
    return layout == D64_LAYOUT_35 ? 683 : MOST_SECTORS;
}

size_t map_entry_offset(uint32_t layout, unsigned track)
{
    size_t extra = layout == D64_LAYOUT_SPEEDDOS ? 0xC0 : 0xAC;
    return D64_TRACK18_OFFSET + (track > 35 ? extra + 4 * (size_t)(track - 36) : 4 * (size_t)track);
}

bool disk_whole(const struct disk *disk)
{
    return disk->len == SECTOR_BYTES * sectors_of_layout(disk->layout);
}

void disk_poke(struct disk *disk, size_t at, uint8_t byte)
{
    if (at >= disk->len)
        return;
    disk->owed[at] = byte;
    disk->lent.piece.start[at] = byte;
}

void disk_repair(struct disk *disk, uint32_t what)
{
    if (!disk_whole(disk))
        return;
    oracle_repair(disk->layout, disk->owed, disk->len, what);
    memcpy(disk->lent.piece.start + D64_TRACK18_OFFSET, disk->owed + D64_TRACK18_OFFSET, D64_TRACK18_BYTES);
}

static unsigned sectors_on(unsigned track)
{
    if (track < 1 || track > 40)
        return 0;
    return track < 18 ? 21 : track < 25 ? 19 : track < 31 ? 18 : 17;
}

size_t sector_number(uint32_t layout, unsigned track, unsigned sector)
{
    size_t before = 0;
    if (track > last_track(layout) || sector >= sectors_on(track))
        return MOST_SECTORS;
    for (unsigned lower = 1; lower < track; lower++)
        before += sectors_on(lower);
    return before + sector;
}

void sector_place(size_t number, uint8_t place[2])
{
    unsigned track = 1;
    while (number >= sectors_on(track) && track < 40)
        number -= sectors_on(track++);
    place[0] = (uint8_t)track;
    place[1] = (uint8_t)number;
}

size_t slot_offset(unsigned slot)
{
    return D64_TRACK18_OFFSET + SECTOR_BYTES + 32 * (size_t)(slot % DIRECTORY_SLOTS);
}

size_t sector_of_file(const struct disk *disk, unsigned slot, unsigned links)
{
    const uint8_t *link = disk->owed + slot_offset(slot) + 3;
    size_t here = FIRST_OF_TRACK_18 + 1;
    for (;;) {
        size_t next = sector_number(disk->layout, link[0], link[1]);
        if (next == MOST_SECTORS)
            return here;
        here = next;
        if (links-- == 0)
            return here;
        link = disk->owed + SECTOR_BYTES * here;
    }
}

unsigned file_slot(const struct disk *disk, unsigned number)
{
    unsigned occupied = 0, seen = 0;
    if (number >= 200)
        return number % DIRECTORY_SLOTS;
    for (unsigned slot = 0; slot < DIRECTORY_SLOTS; slot++)
        occupied += disk->owed[slot_offset(slot) + 2] != 0;
    for (unsigned slot = 0; slot < DIRECTORY_SLOTS && occupied != 0; slot++)
        if (disk->owed[slot_offset(slot) + 2] != 0 && seen++ == number % occupied)
            return slot;
    return 0;
}
