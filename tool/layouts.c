#include "layouts.h"
#include <string.h>
#include <strings.h>

static const struct layout layouts[] = {
    {D64_LAYOUT_35, "35", D64_IMAGE_BYTES, 35, 0},
    {D64_LAYOUT_SPEEDDOS, "speeddos", D64_IMAGE40_BYTES, 40, 0xC0},
    {D64_LAYOUT_DOLPHIN, "dolphin", D64_IMAGE40_BYTES, 40, 0xAC},
};

const struct layout *usual_layout(void)
{
    return &layouts[D64_LAYOUT_35];
}

const struct layout *layout_of_text(const char *text)
{
    for (size_t i = 0; i < sizeof layouts / sizeof layouts[0]; i++) {
        const char digit[] = {(char)('0' + layouts[i].number), '\0'};

        if (strcasecmp(text, layouts[i].name) == 0 || strcmp(text, digit) == 0)
            return &layouts[i];
    }
    return NULL;
}

const char *layouts_of_size(size_t image_bytes)
{
    if (image_bytes == D64_IMAGE_BYTES)
        return "layout 35 (0)";
    return image_bytes == D64_IMAGE40_BYTES ? "layouts speeddos (1) and dolphin (2)" : NULL;
}
