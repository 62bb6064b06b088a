/* extract NAME < image.d64 > file: writes one file of a disk image of 35 tracks to standard output, or says why it cannot. */
#include "d64.h"
#include <stdio.h>
#include <string.h>

static uint8_t image[D64_IMAGE_BYTES + 1], out[D64_IMAGE_BYTES];

int main(int argc, char **argv)
{
    uint8_t answer[D64_BLOCK_BYTES];
    const char *name = argc == 2 ? argv[1] : "";
    size_t image_len = fread(image, 1, sizeof image, stdin); /* one byte too many is noticed */
    uint32_t number = d64_read(D64_LAYOUT_35, image, image_len, (const uint8_t *)name, strlen(name), out, sizeof out, answer, sizeof answer);
    size_t length = answer[3] | (size_t)answer[4] << 8 | (size_t)answer[5] << 16;

    if (number != D64_DONE) {
        fprintf(stderr, "refused, %u: track %u sector %u slot %u\n", (unsigned)number, answer[0], answer[1], answer[2]);
        return (int)number;
    }
    return fwrite(out, 1, length, stdout) == length ? 0 : 64;
}
