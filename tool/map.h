/* The map of an image, read for a refusal's line. The library checks it; here any bytes may stand there. */
#ifndef MAP_H
#define MAP_H

#include "layouts.h"
#include <stdbool.h>

/* A track's entry. */
struct map_entry {
    unsigned count; /* of free sectors, as it stands there */
    uint32_t marks; /* bit s is 1 where sector s is marked free; 0 past the track's last sector, whatever stands there */
};

/* All zero for a track that the layout has not, and where the image has not its size. */
struct map_entry map_entry_of(const struct layout *layout, const uint8_t *image, size_t image_length, unsigned track);

bool is_marked_free(const struct map_entry *entry, unsigned sector);
unsigned sectors_marked_free(const struct map_entry *entry);

#endif
