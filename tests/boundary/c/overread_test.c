/*
 * No call touches a byte that it was not lent, or writes one that it may only read. Each buffer lies against a page
 * that nobody may touch, once with its end and once with its start; what is only read lies in read-only pages, and
 * so does an answer block of the wrong size, with the image then. A call that goes astray ends the program.
 */
#define _DEFAULT_SOURCE
#include "by_hand.h"

#include <signal.h>
#include <stdio.h>
#include <stdlib.h>
#include <sys/mman.h>
#include <unistd.h>

#define PAGE 4096
#define PAGES_BYTES (50 * PAGE) /* room for an image and more */

enum side { AT_END, AT_START };

/* Pages between two that nobody may touch. */
struct lent {
    uint8_t *pages;
    uint8_t *bytes;
    size_t len;
};

static uint8_t disk[IMAGE_BYTES];
static struct lent image, track18, name, data, out, block;
static struct lent written; /* the image, for a call that may write it */
static enum side side;
static int calls;
static const char *now = "";

static void astray(int signal)
{
    static const char message[] = "overread_test: memory that was not lent, or not for writing, is touched by ";
    ssize_t done = write(1, message, sizeof message - 1) + write(1, now, strlen(now)) + write(1, "\n", 1);
    (void)signal;
    _exit(done > 0 ? 1 : 2);
}

static struct lent reserve(void)
{
    struct lent lent = {NULL, NULL, 0};
    void *all = mmap(NULL, PAGES_BYTES + 2 * PAGE, PROT_NONE, MAP_PRIVATE | MAP_ANONYMOUS, -1, 0);
    if (all == MAP_FAILED)
        exit(2);
    lent.pages = (uint8_t *)all + PAGE;
    return lent;
}

static void protect(struct lent *lent, int protection)
{
    if (mprotect(lent->pages, PAGES_BYTES, protection) != 0)
        exit(2);
}

/* Lends so many bytes against the page before or after them. */
static void lend(struct lent *lent, const uint8_t *content, size_t len)
{
    protect(lent, PROT_READ | PROT_WRITE);
    lent->bytes = side == AT_START ? lent->pages : lent->pages + PAGES_BYTES - len;
    lent->len = len;
    if (content != NULL)
        memcpy(lent->bytes, content, len);
}

static void lend_read_only(struct lent *lent, const uint8_t *content, size_t len)
{
    lend(lent, content, len);
    protect(lent, PROT_READ);
}

static void lend_block(size_t len)
{
    lend(&block, NULL, len);
    if (len != D64_BLOCK_BYTES)
        protect(&block, PROT_READ);
}

static void check(void)
{
    now = "d64_check()";
    d64_check(LAYOUT, image.bytes, image.len, block.bytes, block.len);
    calls++;
}

static void read_file(const char *file, size_t name_len, size_t out_len)
{
    now = "d64_read()";
    lend_read_only(&name, (const uint8_t *)file, name_len);
    lend(&out, NULL, out_len);
    d64_read(LAYOUT, image.bytes, image.len, name.bytes, name.len, out.bytes, out.len, block.bytes, block.len);
    calls++;
}

static void tell(size_t position, size_t entry_len)
{
    now = "d64_tell()";
    lend(&out, NULL, entry_len);
    d64_tell(LAYOUT, image.bytes, image.len, position, out.bytes, out.len, block.bytes, block.len);
    calls++;
}

static void list(size_t text_len)
{
    now = "d64_listing()";
    lend(&out, NULL, text_len);
    d64_listing(LAYOUT, track18.bytes, track18.len, out.bytes, out.len, block.bytes, block.len);
    calls++;
}

/* The image as it is, each time anew. With an answer block of the wrong size nothing may be written. */
static void lend_written(void)
{
    if (block.len == D64_BLOCK_BYTES)
        lend(&written, image.bytes, image.len);
    else
        lend_read_only(&written, image.bytes, image.len);
}

static void format(const char *disk_name, size_t name_len)
{
    now = "d64_format()";
    lend_read_only(&name, (const uint8_t *)disk_name, name_len);
    lend_written();
    d64_format(LAYOUT, written.bytes, written.len, name.bytes, name.len, 0x30, 0x31, block.bytes, block.len);
    calls++;
}

static void store(const char *file, size_t name_len, uint32_t kind, size_t length)
{
    now = "d64_store()";
    lend_read_only(&name, (const uint8_t *)file, name_len);
    lend_read_only(&data, NULL, length);
    lend_written();
    d64_store(LAYOUT, written.bytes, written.len, name.bytes, name.len, kind, data.bytes, data.len, block.bytes, block.len);
    calls++;
}

static void scratch(const char *file, size_t name_len)
{
    now = "d64_scratch()";
    lend_read_only(&name, (const uint8_t *)file, name_len);
    lend_written();
    d64_scratch(LAYOUT, written.bytes, written.len, name.bytes, name.len, block.bytes, block.len);
    calls++;
}

/* Names of every sort of length, data at the edges of a sector and of a disk. */
static void call_writing(void)
{
    static const char file[] = "F000 AND MORE THAN THAT";
    static const size_t names[] = {0, 1, 4, 15, 16, 17};
    static const size_t lengths[] = {0, 1, 253, 254, 255, 508, 509, 5000, MOST_BYTES, MOST_BYTES + 1};
    for (size_t i = 0; i < sizeof names / sizeof names[0]; i++) {
        format(file, names[i]);
        store(file, names[i], 2, 300);
        scratch(file, names[i]);
    }
    for (size_t i = 0; i < sizeof lengths / sizeof lengths[0]; i++)
        store("NEW", 3, 1, lengths[i]);
    store("NEW", 3, 3, 300);
    store("NEW", 3, 4, 300);
}

/* Names of every length, outputs of every size that matters to a file of 'length' bytes. */
static void call_all(size_t length)
{
    static const char file[] = "F000 AND MORE THAN THAT";
    check();
    for (size_t len = 0; len <= 20; len++)
        read_file(file, len, length);
    for (size_t room = length > 2 ? length - 2 : 0; room <= length + 2; room++)
        read_file(file, 4, room);
    for (size_t room = 0; room <= D64_ENTRY_BYTES + 1; room++)
        tell(0, room);
    tell(143, D64_ENTRY_BYTES);
    tell(SIZE_MAX, D64_ENTRY_BYTES);
    list(0);
    list(D64_LISTING_BYTES - 1);
    list(D64_LISTING_BYTES);
    call_writing();
}

static void call_on_disk(size_t length)
{
    lend_read_only(&image, disk, sizeof disk);
    lend_read_only(&track18, disk + D64_TRACK18_OFFSET, D64_TRACK18_BYTES);
    call_all(length);
}

static void call_on_sizes(void)
{
    static const size_t sizes[] = {0, 1, 2, 255, 256, 4863, 91392, 91650, 174847, 174848, 196607, 196608};
    for (size_t i = 0; i < sizeof sizes / sizeof sizes[0]; i++) {
        if (sizes[i] > sizeof disk)
            continue;
        lend_read_only(&image, disk, sizes[i]);
        lend_read_only(&track18, disk, sizes[i]);
        call_all(10);
    }
}

/* Every first byte of every sector, and every link of the directory, leads astray. */
static void call_on_bad_links(void)
{
    static const uint8_t tracks[] = {0, 1, 17, 18, 35, 36, 40, 41, 255};
    struct hand hand = {17, 0, 0};
    format_by_hand(disk, "LINKS", 0x30, 0x31);
    add_files(disk, &hand, 9, 600);
    for (size_t i = 0; i < sizeof tracks; i++)
        for (int sector = 15; sector < 256; sector += sector < 22 ? 1 : 78) {
            set_link(disk, 17, 1, tracks[i], sector);
            call_on_disk(600);
            set_link(disk, 18, 2, tracks[i], sector);
            call_on_disk(600);
            set_link(disk, 18, 2, 0, 255);
        }
}

/* All bits past the tracks' last sectors are set, and the last sector alone is free or all: the one after it would lie behind the image. */
static void call_on_spare_bits(void)
{
    struct hand hand = {17, 0, 0};
    format_by_hand(disk, "SPARE", 0x30, 0x31);
    for (int track = 1; track <= TRACKS; track++)
        map_entry(disk, track)[3] |= (uint8_t)(0xFF << (sectors_of(track) - 16));
    call_on_disk(0);
    add_files(disk, &hand, 1, MOST_BYTES - DATA_BYTES);
    call_on_disk(MOST_BYTES - DATA_BYTES);
}

static void call_on_many_disks(void)
{
    struct hand hand = {17, 0, 0};
    format_by_hand(disk, "MANY", 0x30, 0x31);
    call_on_disk(0);
    add_files(disk, &hand, 8, 600); /* the directory grows */
    call_on_disk(600);
    add_files(disk, &hand, 144, 600);
    call_on_disk(600);
    call_on_sizes();
    hand.track = 17;
    hand.sector = hand.slot = 0;
    format_by_hand(disk, "FULL", 0x30, 0x31);
    add_files(disk, &hand, 1, MOST_BYTES);
    call_on_disk(MOST_BYTES);
    memset(disk, 0xFF, sizeof disk);
    call_on_disk(10);
    call_on_bad_links();
    call_on_spare_bits();
}

int main(void)
{
    static const size_t blocks[] = {D64_BLOCK_BYTES, 0, 8, 10};
    struct lent *all[] = {&image, &track18, &name, &data, &out, &block, &written};
    signal(SIGSEGV, astray);
    signal(SIGBUS, astray);
    for (size_t i = 0; i < sizeof all / sizeof all[0]; i++)
        *all[i] = reserve();
    for (int turn = 0; turn < 2; turn++) {
        side = turn == 0 ? AT_END : AT_START;
        for (size_t i = 0; i < sizeof blocks / sizeof blocks[0]; i++) {
            lend_block(blocks[i]);
            call_on_many_disks();
        }
    }
    printf("overread_test: %d calls\n", calls);
    return 0;
}
