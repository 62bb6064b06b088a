/* master DISK NAME FILE > image.d64: formats a disk of 35 tracks, stores a file on it as a PRG, and says what it stored or why not. */
#include "d64.h"
#include <stdio.h>
#include <string.h>

static uint8_t image[D64_IMAGE_BYTES], data[D64_IMAGE_BYTES]; /* no disk takes so much data: a file that is cut is refused */

static const uint8_t *bytes(const char *text)
{
    return (const uint8_t *)text;
}

int main(int argc, char **argv)
{
    uint8_t answer[D64_BLOCK_BYTES];
    FILE *file = argc == 4 ? fopen(argv[3], "rb") : NULL;
    size_t data_len, stored;
    uint32_t number;

    if (file == NULL) {
        fprintf(stderr, "usage: master DISK NAME FILE > image.d64\n");
        return 64;
    }
    data_len = fread(data, 1, sizeof data, file);
    fclose(file);
    number = d64_format(D64_LAYOUT_35, image, sizeof image, bytes(argv[1]), strlen(argv[1]), 0x30, 0x31, answer, sizeof answer);
    if (number == D64_DONE)
        number = d64_store(D64_LAYOUT_35, image, sizeof image, bytes(argv[2]), strlen(argv[2]), 2, data, data_len, answer, sizeof answer);
    if (number != D64_DONE) {
        fprintf(stderr, "refused, %u: track %u sector %u slot %u\n", (unsigned)number, answer[0], answer[1], answer[2]);
        return (int)number;
    }
    stored = answer[3] | (size_t)answer[4] << 8 | (size_t)answer[5] << 16;
    fprintf(stderr, "stored, %zu bytes in %u sectors\n", stored, answer[7] | (unsigned)answer[8] << 8);
    return fwrite(image, 1, sizeof image, stdout) == sizeof image ? 0 : 64;
}
