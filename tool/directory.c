#include "directory.h"
#include "files.h"
#include "names.h"
#include <stdio.h>
#include <stdlib.h>
#include <string.h>

enum {
    NAME_BYTES = 16,
    DISK_NAME_OFFSET = D64_TRACK18_OFFSET + 0x90, /* source document 000: the label that a drive prints, name and id */
    DISK_ID_OFFSET = D64_TRACK18_OFFSET + 0xA2,   /* with the DOS type behind it, five bytes */
    DISK_ID_BYTES = 5,
    TOTAL_DIGITS = 4,                             /* the listing's last line: the free sectors */
    PADDING = 0xA0
};

/* The listing of track 18 of an image; of no bytes, which is refused with 1, where the image has not the layout's size. */
static struct answer listing_of(const struct layout *layout, const uint8_t *image, size_t image_length, uint8_t text[D64_LISTING_BYTES])
{
    bool whole = image_length == layout->image_bytes;
    uint8_t block[D64_BLOCK_BYTES];
    uint32_t number = d64_listing(layout->number, image + (whole ? D64_TRACK18_OFFSET : 0), whole ? D64_TRACK18_BYTES : 0,
                                  text, D64_LISTING_BYTES, block, sizeof block);

    return answer_of(number, block);
}

int print_listing(const struct layout *layout, const uint8_t *image, size_t image_length, struct answer *answer)
{
    static uint8_t text[D64_LISTING_BYTES];

    *answer = listing_of(layout, image, image_length, text);
    return answer->number == D64_DONE ? write_stream(text, answer->length) : 0;
}

/* A part of the label, its padding as blanks. */
static void print_label(const uint8_t *bytes, size_t length)
{
    char text[NAME_TEXT_BYTES(1)];

    for (size_t i = 0; i < length; i++) {
        text_of_name(bytes + i, 1, text, sizeof text);
        fputs(bytes[i] == PADDING ? " " : text, stdout);
    }
}

/* One file by what d64_tell() says of it: type, name, first sector, count, length. */
static void print_entry(const uint8_t entry[D64_ENTRY_BYTES])
{
    static const char *const kinds[] = {"DEL", "SEQ", "PRG", "USR", "REL"};
    const uint8_t *name = entry + 1, *padding = memchr(name, PADDING, NAME_BYTES);
    unsigned kind = entry[0] & 0x0F, blocks = entry[19] | (unsigned)entry[20] << 8;
    char text[NAME_TEXT_BYTES(NAME_BYTES)];

    text_of_name(name, padding != NULL ? (size_t)(padding - name) : NAME_BYTES, text, sizeof text);
    printf("%-5u\"%s\"%*s %s%s\n", blocks, text, (int)strlen(text) < NAME_BYTES ? NAME_BYTES - (int)strlen(text) : 0, "",
           kind < sizeof kinds / sizeof kinds[0] ? kinds[kind] : "?", (entry[0] & 0x40) != 0 ? "<" : "");
}

int print_directory(const struct layout *layout, const uint8_t *image, size_t image_length, struct answer *answer)
{
    static uint8_t text[D64_LISTING_BYTES];
    uint8_t entry[D64_ENTRY_BYTES], block[D64_BLOCK_BYTES];
    char total[TOTAL_DIGITS + 1] = "";

    *answer = answer_of(d64_check(layout->number, image, image_length, block, sizeof block), block);
    if (answer->number == D64_DONE)
        *answer = listing_of(layout, image, image_length, text);
    if (answer->number != D64_DONE)
        return 0;
    fputs("0 \"", stdout);
    print_label(image + DISK_NAME_OFFSET, NAME_BYTES);
    fputs("\" ", stdout);
    print_label(image + DISK_ID_OFFSET, DISK_ID_BYTES);
    putchar('\n');
    for (size_t position = 0; d64_tell(layout->number, image, image_length, position, entry, sizeof entry, block, sizeof block) == D64_DONE; position++)
        print_entry(entry);
    memcpy(total, text + answer->length - TOTAL_DIGITS - 1, TOTAL_DIGITS);
    printf("%lu BLOCKS FREE.\n", strtoul(total, NULL, 16));
    return 0;
}
