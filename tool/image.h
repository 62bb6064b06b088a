/* The image of a command: held in memory, and written back whole. */
#ifndef IMAGE_H
#define IMAGE_H

#include "files.h"
#include "layouts.h"

struct image {
    const char *path;
    const struct layout *layout;
    bool for_change, is_new;
    struct replacement file;                  /* held where the image is a file for change */
    size_t length;                            /* one byte too many for any layout is noticed, and no more are read */
    uint8_t bytes[LARGEST_IMAGE_BYTES + 1];
    uint8_t on_file[LARGEST_IMAGE_BYTES + 1]; /* the bytes as they were read; zeros if it is new */
};

/* Reads an image, and locks it if it is for change. One that may be new starts as the layout's zeros if there is no such file. */
int image_open(struct image *image, const struct layout *layout, const char *path, bool for_change, bool may_be_new);

/* Writes an image for change to its file if it differs, or to standard output. A new one that nothing was done to is not written. */
int image_save(struct image *image, bool *written);

/* Leaves the file as it is. */
void image_drop(struct image *image);

#endif
