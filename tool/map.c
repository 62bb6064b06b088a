#include "map.h"

enum { ENTRY_BYTES = 4, ENTRY_BITS = 24 };

/* None for a track that the layout has not. */
static unsigned sectors_of(const struct layout *layout, unsigned track)
{
    if (track < 1 || track > layout->tracks)
        return 0;
    return track <= 17 ? 21 : track <= 24 ? 19 : track <= 30 ? 18 : 17;
}

/* Where a track's entry starts in 18/0. */
static unsigned offset_of(const struct layout *layout, unsigned track)
{
    return track < FIRST_EXTRA_TRACK ? ENTRY_BYTES * track : layout->extra_entries + ENTRY_BYTES * (track - FIRST_EXTRA_TRACK);
}

struct map_entry map_entry_of(const struct layout *layout, const uint8_t *image, size_t image_length, unsigned track)
{
    struct map_entry entry = {.count = 0};
    unsigned sectors = sectors_of(layout, track);

    if (image_length == layout->image_bytes && sectors > 0) {
        const uint8_t *bytes = image + D64_TRACK18_OFFSET + offset_of(layout, track);

        entry.count = bytes[0];
        entry.marks = (bytes[1] | (uint32_t)bytes[2] << 8 | (uint32_t)bytes[3] << 16) & ((UINT32_C(1) << sectors) - 1);
    }
    return entry;
}

bool is_marked_free(const struct map_entry *entry, unsigned sector)
{
    return sector < ENTRY_BITS && (entry->marks >> sector & 1) != 0;
}

unsigned sectors_marked_free(const struct map_entry *entry)
{
    unsigned marked = 0;

    for (unsigned sector = 0; sector < ENTRY_BITS; sector++)
        marked += is_marked_free(entry, sector);
    return marked;
}
