/* The image of one input, twice: as lent to the library under test, and as the oracle leaves it. */
#ifndef DISK_H
#define DISK_H

#include "d64.h"
#include "memory.h"

struct disk {
    struct lent lent;
    uint8_t owed[MOST_LENT];
    size_t len;
    uint32_t layout; /* whose image it is, 0, 1 or 2 */
    uint32_t named;  /* the layout that the calls name, which may be none */
};

#define MOST_SECTORS 768
#define SECTOR_BYTES 256
#define FIRST_OF_TRACK_18 357
#define DIRECTORY_SLOTS 144

/* The input's disk starts as these bytes. */
void disk_start(struct disk *disk, const uint8_t *bytes, size_t len, unsigned place);

/* What a layout fixes: the last track, the number of sectors, and where the map entry of a track stands in an image. */
unsigned last_track(uint32_t layout);
size_t sectors_of_layout(uint32_t layout);
size_t map_entry_offset(uint32_t layout, unsigned track);

/* Whether it has the size of its layout's images; damage and sectors are for such disks alone. */
bool disk_whole(const struct disk *disk);

/* Writes one byte, or makes map and counts right again (oracle_repair), on both sides. */
void disk_poke(struct disk *disk, size_t at, uint8_t byte);
void disk_repair(struct disk *disk, uint32_t what);

/* The number of the sector at track and sector, or MOST_SECTORS off a disk of the layout. */
size_t sector_number(uint32_t layout, unsigned track, unsigned sector);
void sector_place(size_t number, uint8_t place[2]);

/* Where a slot starts, counted through track 18 from 18/1 upward, linked or not. */
size_t slot_offset(unsigned slot);

/* An occupied slot by its number among them, again from the first where there are fewer; from 200 on, any slot. */
unsigned file_slot(const struct disk *disk, unsigned number);

/* The number of the sector that lies so many links behind a slot's first, fewer where the chain ends. */
size_t sector_of_file(const struct disk *disk, unsigned slot, unsigned links);

#endif
