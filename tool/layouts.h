/* The layouts of disks: their names, and what the tool has to know of each. */
#ifndef LAYOUTS_H
#define LAYOUTS_H

#include "d64.h"

enum { LARGEST_IMAGE_BYTES = D64_IMAGE40_BYTES, FIRST_EXTRA_TRACK = 36 };

struct layout {
    uint32_t number;        /* the library's */
    const char *name;
    size_t image_bytes;
    unsigned tracks;
    unsigned extra_entries; /* where 18/0 has the map entries of the tracks from FIRST_EXTRA_TRACK on */
};

/* What an image has where no layout is named. */
const struct layout *usual_layout(void);

/* The layout of that name or number, or NULL. */
const struct layout *layout_of_text(const char *text);

/* Which layouts have images of so many bytes, as it is told; NULL if none has. */
const char *layouts_of_size(size_t image_bytes);

#endif
