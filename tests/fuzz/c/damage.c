#include "damage.h"

/* The start of the sector that an argument names. */
static size_t next_where(const struct disk *disk, struct input *input)
{
    struct three where = next_three(input);
    switch (where.kind % WHERES) {
    case IN_FILE: return SECTOR_BYTES * sector_of_file(disk, file_slot(disk, where.a), where.b);
    case BY_NUMBER: return SECTOR_BYTES * ((where.a + 256 * (size_t)where.b) % sectors_of_layout(disk->layout));
    default: return D64_TRACK18_OFFSET + SECTOR_BYTES * (size_t)(where.a % 19);
    }
}

static void link_sector(struct disk *disk, struct input *input)
{
    size_t at = next_where(disk, input);
    struct three target = next_three(input);
    uint8_t link[2] = {target.a, target.b};
    switch (target.kind % TARGETS) {
    case TO_END: link[0] = 0, link[1] = target.a; break;
    case TO_FILE: sector_place(sector_of_file(disk, file_slot(disk, target.a), target.b), link); break;
    case TO_TRACK_18: link[0] = 18, link[1] = target.a % 20; break;
    default: break;
    }
    disk_poke(disk, at, link[0]);
    disk_poke(disk, at + 1, link[1]);
}

static void change_slot(struct disk *disk, struct input *input)
{
    size_t slot = slot_offset(file_slot(disk, next_byte(input)));
    uint8_t field = next_byte(input), value = next_byte(input);
    unsigned more = field / FIELDS;
    switch (field % FIELDS) {
    case TYPE: disk_poke(disk, slot + 2, value); break;
    case FIRST_TRACK: disk_poke(disk, slot + 3, value); break;
    case FIRST_SECTOR: disk_poke(disk, slot + 4, value); break;
    case NAME_BYTE: disk_poke(disk, slot + 5 + more % 16, value); break;
    case COUNT_LOW: disk_poke(disk, slot + 30, value); break;
    case COUNT_HIGH: disk_poke(disk, slot + 31, value); break;
    case ANY_BYTE: disk_poke(disk, slot + more, value); break;
    default:
        for (unsigned at = more % 16; at < 16; at++)
            disk_poke(disk, slot + 5 + at, 0xA0);
    }
}

static void change_map_bit(struct disk *disk, struct input *input)
{
    uint8_t track = (uint8_t)(next_byte(input) % (last_track(disk->layout) + 1)), sector = next_byte(input);
    size_t entry = map_entry_offset(disk->layout, track), at = entry + 1 + (sector & 127) % 24 / 8;
    uint8_t bit = (uint8_t)(1 << (sector & 127) % 24 % 8), old = disk->owed[at];
    disk_poke(disk, at, old ^ bit);
    if (sector & 128)
        disk_poke(disk, entry, (uint8_t)(disk->owed[entry] + (old & bit ? 255 : 1)));
}

static void copy(struct disk *disk, size_t from, size_t to, size_t len)
{
    for (size_t i = 0; i < len; i++)
        disk_poke(disk, to + i, disk->owed[from + i]);
}

static void change_byte(struct disk *disk, struct input *input)
{
    size_t at = next_where(disk, input);
    at += next_byte(input);
    disk_poke(disk, at, next_byte(input));
}

static void change_map_entry(struct disk *disk, struct input *input)
{
    size_t at = map_entry_offset(disk->layout, next_byte(input) % (last_track(disk->layout) + 1));
    at += next_byte(input) % 4;
    disk_poke(disk, at, next_byte(input));
}

void damage(struct disk *disk, enum operation operation, struct input *input)
{
    size_t from;
    if (!disk_whole(disk))
        return;
    switch (operation) {
    case OP_BYTE: change_byte(disk, input); break;
    case OP_LINK: link_sector(disk, input); break;
    case OP_SLOT: change_slot(disk, input); break;
    case OP_MAP_ENTRY: change_map_entry(disk, input); break;
    case OP_MAP_BIT: change_map_bit(disk, input); break;
    case OP_REPAIR: disk_repair(disk, next_byte(input) & 3); break;
    case OP_COPY_SLOT:
        from = slot_offset(file_slot(disk, next_byte(input)));
        copy(disk, from, slot_offset(next_byte(input)), 32);
        break;
    case OP_COPY_SECTOR:
        from = next_where(disk, input);
        copy(disk, from, next_where(disk, input), SECTOR_BYTES);
        break;
    case OP_VERSION: disk_poke(disk, D64_TRACK18_OFFSET + 2, next_byte(input)); break;
    default: break;
    }
}
