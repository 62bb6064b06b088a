#include "image.h"
#include "messages.h"
#include <string.h>

static int read_image(struct image *image)
{
    int status = read_file(image->path, image->bytes, sizeof image->bytes, &image->length);

    memcpy(image->on_file, image->bytes, image->length);
    return status;
}

int image_open(struct image *image, const struct layout *layout, const char *path, bool for_change, bool may_be_new)
{
    bool is_file = for_change && !is_stream(path);
    int status = 0;

    image->path = path;
    image->layout = layout;
    image->for_change = for_change;
    if (is_file)
        status = replacement_begin(&image->file, path);
    if (status != 0)
        return status;
    image->is_new = may_be_new && (is_stream(path) || (is_file && image->file.is_new));
    if (image->is_new) {
        image->length = layout->image_bytes;
        return 0;
    }
    status = read_image(image);
    if (status != 0 && is_file)
        replacement_abandon(&image->file);
    return status;
}

int image_save(struct image *image, bool *written)
{
    bool changed = memcmp(image->bytes, image->on_file, image->length) != 0;

    *written = image->for_change && (changed || (is_stream(image->path) && !image->is_new));
    if (*written && is_stream(image->path)) {
        if (image->length > LARGEST_IMAGE_BYTES)
            return fail(STATUS_NO_OUTPUT, "the image was not read to its end; nothing is written");
        return write_stream(image->bytes, image->length);
    }
    if (*written)
        return replacement_commit(&image->file, image->bytes, image->length);
    image_drop(image);
    return 0;
}

void image_drop(struct image *image)
{
    if (image->for_change && !is_stream(image->path))
        replacement_abandon(&image->file);
}
