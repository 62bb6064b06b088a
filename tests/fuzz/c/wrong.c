/*
 * The archive with one fault, chosen by the environment's WRONG: a fuzzer that cannot fail shows nothing. Each must be
 * found (tests/fuzz/run).
 */
#include <stdlib.h>
#include <string.h>

#include "disk.h"
#include "library.h"

static uint8_t copy[D64_IMAGE40_BYTES];

/* Keeps an image of any layout in 'copy'. */
static void keep(const uint8_t *image, size_t len)
{
    if (len == D64_IMAGE_BYTES || len == D64_IMAGE40_BYTES)
        memcpy(copy, image, len);
}

static int on_track_18(size_t offset)
{
    return offset >= D64_TRACK18_OFFSET && offset < D64_TRACK18_OFFSET + D64_TRACK18_BYTES;
}

/* 1: a byte of a scratched file stays where it was, at the end of its lowest sector. */
static uint32_t scratch_leaves_a_byte(uint32_t layout, uint8_t *image, size_t len, const uint8_t *name, size_t name_len,
                                      uint8_t *answer, size_t answer_len)
{
    keep(image, len);
    uint32_t number = d64_scratch(layout, image, len, name, name_len, answer, answer_len);
    for (size_t sector = 0; number == 0 && sector < len; sector += 256) {
        if (memcmp(copy + sector, image + sector, 256) != 0 && !on_track_18(sector)) {
            image[sector + 255] = copy[sector + 255];
            break;
        }
    }
    return number;
}

static uint8_t *map_entry(uint32_t layout, uint8_t *image, unsigned track)
{
    return image + map_entry_offset(layout, track);
}

/* The bits past the last sector of a track from 25 on, in the last byte of its entry. */
static uint8_t spare_mask(size_t track)
{
    return track < 31 ? 0xFC : 0xFE;
}

/* 2: on tracks 31 to 35 a count is taken too that counts the bits past the last sector. */
static uint32_t check_takes_counted(uint32_t layout, const uint8_t *image, size_t len, uint8_t *answer, size_t answer_len)
{
    uint32_t number = d64_check(layout, image, len, answer, answer_len);
    if (number != D64_WRONG_MAP || answer[0] < 31)
        return number;
    memcpy(copy, image, len);
    for (size_t track = 31; track <= 35; track++) {
        uint8_t *entry = map_entry(layout, copy, track);
        int own = __builtin_popcount(entry[1]) + __builtin_popcount(entry[2]) + (entry[3] & 1);
        if (entry[0] == own + __builtin_popcount(entry[3] & spare_mask(track)))
            entry[0] = (uint8_t)own;
    }
    return d64_check(layout, copy, len, answer, answer_len);
}

/* 3: one byte too many is written, of files with two sectors or more. */
static uint32_t read_writes_more(uint32_t layout, const uint8_t *image, size_t len, const uint8_t *name, size_t name_len,
                                 uint8_t *out, size_t out_len, uint8_t *answer, size_t answer_len)
{
    uint32_t number = d64_read(layout, image, len, name, name_len, out, out_len, answer, answer_len);
    size_t length = number == 0 ? answer[3] | (size_t)answer[4] << 8 | (size_t)answer[5] << 16 : 0;
    if (number == 0 && answer[7] > 1)
        out[length] ^= 1;
    return number;
}

/* 4: the map is marked before the directory is found full. */
static uint32_t store_marks_first(uint32_t layout, uint8_t *image, size_t len, const uint8_t *name, size_t name_len, uint32_t kind,
                                  const uint8_t *data, size_t data_len, uint8_t *answer, size_t answer_len)
{
    uint32_t number = d64_store(layout, image, len, name, name_len, kind, data, data_len, answer, answer_len);
    if (number == D64_DIRECTORY_FULL)
        image[D64_TRACK18_OFFSET + 4 * 17]--;
    return number;
}

/* 5: a position is cut to one byte. */
static uint32_t tell_cuts_position(uint32_t layout, const uint8_t *image, size_t len, size_t position,
                                   uint8_t *entry, size_t entry_len, uint8_t *answer, size_t answer_len)
{
    return d64_tell(layout, image, len, position & 255, entry, entry_len, answer, answer_len);
}

/* 6: a byte behind track 18 is read, and has no effect. */
static uint32_t listing_reads_beyond(uint32_t layout, const uint8_t *track18, size_t len, uint8_t *text, size_t text_len,
                                     uint8_t *answer, size_t answer_len)
{
    if (len == D64_TRACK18_BYTES)
        (void)*(const volatile uint8_t *)(track18 + len);
    return d64_listing(layout, track18, len, text, text_len, answer, answer_len);
}

/* 7: the high byte of a file's count is taken for 0. */
static uint32_t check_misses_high_counts(uint32_t layout, const uint8_t *image, size_t len, uint8_t *answer, size_t answer_len)
{
    uint32_t number = d64_check(layout, image, len, answer, answer_len);
    if (number != D64_WRONG_COUNT)
        return number;
    memcpy(copy, image, len);
    size_t slot = D64_TRACK18_OFFSET + 256 * (size_t)answer[1] + 32 * (size_t)(answer[2] % 8);
    copy[slot + 31] = 0;
    return d64_check(layout, copy, len, answer, answer_len);
}

/* 8: what was in the last sector before is not overwritten with zeros by a store; nearly full disks alone come to it. */
static uint32_t store_leaves_junk(uint32_t layout, uint8_t *image, size_t len, const uint8_t *name, size_t name_len, uint32_t kind,
                                  const uint8_t *data, size_t data_len, uint8_t *answer, size_t answer_len)
{
    uint8_t last = len != 0 ? image[len - 1] : 0;
    uint32_t number = d64_store(layout, image, len, name, name_len, kind, data, data_len, answer, answer_len);
    if (number == 0 && last != 0 && image[len - 1] == 0)
        image[len - 1] = last;
    return number;
}

/* 9: a store as SEQ that leaves no sector partly filled changes a byte of 1/0. */
static uint32_t store_of_full_sectors(uint32_t layout, uint8_t *image, size_t len, const uint8_t *name, size_t name_len, uint32_t kind,
                                      const uint8_t *data, size_t data_len, uint8_t *answer, size_t answer_len)
{
    uint32_t number = d64_store(layout, image, len, name, name_len, kind, data, data_len, answer, answer_len);
    if (number == 0 && data_len % 254 == 0 && kind == 1)
        image[0] ^= 1;
    return number;
}

/* Whether the copy has a USR file of this name; its entry is as tell gives it. */
static bool usr_on_copy(uint32_t layout, size_t len, const uint8_t *name, size_t name_len, uint8_t entry[D64_ENTRY_BYTES])
{
    uint8_t answer[D64_BLOCK_BYTES], padded[16];
    memset(padded, 0xA0, sizeof padded);
    memcpy(padded, name, name_len);
    for (size_t at = 0; d64_tell(layout, copy, len, at, entry, D64_ENTRY_BYTES, answer, sizeof answer) == 0; at++)
        if (memcmp(entry + 1, padded, sizeof padded) == 0)
            return entry[0] % 16 == 3;
    return false;
}

/* 10: of a USR file that is scratched the last byte of its last sector stays. */
static uint32_t scratch_leaves_usr(uint32_t layout, uint8_t *image, size_t len, const uint8_t *name, size_t name_len,
                                   uint8_t *answer, size_t answer_len)
{
    uint8_t entry[D64_ENTRY_BYTES];
    keep(image, len);
    uint32_t number = d64_scratch(layout, image, len, name, name_len, answer, answer_len);
    if (number != 0 || !usr_on_copy(layout, len, name, name_len, entry))
        return number;
    size_t sector = 0;
    for (const uint8_t *link = entry + 17; link[0] != 0; link = copy + sector)
        sector = SECTOR_BYTES * sector_number(layout, link[0], link[1]);
    image[sector + 255] = copy[sector + 255];
    return number;
}

/* 11: on tracks 25 to 35 a store clears the bits past the last sector where it takes sectors. */
static uint32_t store_clears_bits(uint32_t layout, uint8_t *image, size_t len, const uint8_t *name, size_t name_len, uint32_t kind,
                                  const uint8_t *data, size_t data_len, uint8_t *answer, size_t answer_len)
{
    keep(image, len);
    uint32_t number = d64_store(layout, image, len, name, name_len, kind, data, data_len, answer, answer_len);
    for (size_t track = 25; number == 0 && track <= 35; track++)
        if (map_entry(layout, copy, track)[0] != map_entry(layout, image, track)[0])
            map_entry(layout, image, track)[3] &= (uint8_t)~spare_mask(track);
    return number;
}

/* 12: the highest of a track's wrong bits is named: those below it are put right in a copy first. */
static uint32_t check_names_the_highest(uint32_t layout, const uint8_t *image, size_t len, uint8_t *answer, size_t answer_len)
{
    uint32_t number = d64_check(layout, image, len, answer, answer_len);
    uint8_t next[D64_BLOCK_BYTES];
    if (number != D64_WRONG_MAP)
        return number;
    memcpy(copy, image, len);
    memcpy(next, answer, sizeof next);
    while (next[0] == answer[0] && next[1] != 255) {
        answer[1] = next[1];
        map_entry(layout, copy, next[0])[1 + next[1] / 8] ^= (uint8_t)(1 << next[1] % 8);
        d64_check(layout, copy, len, next, sizeof next);
    }
    return number;
}

/* 13: a store gives 255 for a wrong bit, as it did before, on tracks 19 to 35. */
static uint32_t store_names_no_sector(uint32_t layout, uint8_t *image, size_t len, const uint8_t *name, size_t name_len, uint32_t kind,
                                      const uint8_t *data, size_t data_len, uint8_t *answer, size_t answer_len)
{
    uint32_t number = d64_store(layout, image, len, name, name_len, kind, data, data_len, answer, answer_len);
    if (number == D64_WRONG_MAP && answer[0] > 18)
        answer[1] = 255;
    return number;
}

/* 14: beside a wrong count a scratch names a bit past the last sector of a track from 25 on. */
static uint32_t scratch_names_a_spare_bit(uint32_t layout, uint8_t *image, size_t len, const uint8_t *name, size_t name_len,
                                          uint8_t *answer, size_t answer_len)
{
    uint32_t number = d64_scratch(layout, image, len, name, name_len, answer, answer_len);
    if (number != D64_WRONG_MAP || answer[1] != 255 || answer[0] < 25)
        return number;
    int spare = map_entry(layout, image, answer[0])[3] & spare_mask(answer[0]);
    if (spare != 0)
        answer[1] = (uint8_t)(16 + __builtin_ctz((unsigned)spare));
    return number;
}

/* Puts the sectors of a file into masks: what a chain has on a track takes the place of what it had there before. */
static void put_chain(uint32_t layout, const uint8_t *image, const uint8_t *link, uint32_t masks[41])
{
    uint32_t run = 0, had[41];
    memcpy(had, masks, sizeof had);
    while (link[0] != 0) {
        const uint8_t *next = image + SECTOR_BYTES * sector_number(layout, link[0], link[1]);
        run |= 1u << link[1];
        masks[link[0]] = had[link[0]] | run;
        if (next[0] != link[0])
            run = 0;
        link = next;
    }
}

/* 15: of a chain that comes back to a track, tracks 19 to 35 keep only the last of its visits; the check gives 8. */
static uint32_t check_loses_masks(uint32_t layout, const uint8_t *image, size_t len, uint8_t *answer, size_t answer_len)
{
    uint32_t number = d64_check(layout, image, len, answer, answer_len), masks[41] = {0};
    const uint8_t *sector = image + D64_TRACK18_OFFSET + SECTOR_BYTES;
    if (number != 0)
        return number;
    for (;; sector = image + D64_TRACK18_OFFSET + SECTOR_BYTES * (size_t)sector[1]) {
        for (size_t slot = 0; slot < SECTOR_BYTES; slot += 32)
            if (sector[slot + 2] != 0)
                put_chain(layout, image, sector + slot + 3, masks);
        if (sector[0] == 0)
            break;
    }
    for (uint8_t track = 19; track <= 35; track++) {
        const uint8_t *entry = image + D64_TRACK18_OFFSET + 4 * (size_t)track;
        uint32_t own = track < 25 ? 0x7FFFF : track < 31 ? 0x3FFFF : 0x1FFFF;
        uint32_t lost = ~(entry[1] | (uint32_t)entry[2] << 8 | (uint32_t)entry[3] << 16) & own & ~masks[track];
        if (lost != 0) {
            answer[0] = track, answer[1] = (uint8_t)__builtin_ctz(lost);
            return D64_WRONG_MAP;
        }
    }
    return number;
}

/* 16: counts are compared modulo 32. */
static uint32_t check_cuts_counts(uint32_t layout, const uint8_t *image, size_t len, uint8_t *answer, size_t answer_len)
{
    uint32_t number = d64_check(layout, image, len, answer, answer_len);
    if (number != D64_WRONG_MAP)
        return number;
    memcpy(copy, image, len);
    for (size_t track = 1; track <= 35; track++)
        map_entry(layout, copy, track)[0] %= 32;
    return d64_check(layout, copy, len, answer, answer_len);
}

/* 17: room is counted without track 35. */
static uint32_t store_misses_room(uint32_t layout, uint8_t *image, size_t len, const uint8_t *name, size_t name_len, uint32_t kind,
                                  const uint8_t *data, size_t data_len, uint8_t *answer, size_t answer_len)
{
    keep(image, len);
    uint32_t number = d64_store(layout, image, len, name, name_len, kind, data, data_len, answer, answer_len);
    size_t room = 0;
    for (unsigned track = 1; track <= last_track(layout); track++)
        room += track == 18 || track == 35 ? 0 : map_entry(layout, copy, track)[0];
    if (number != 0 || data_len <= 254 * room || map_entry(layout, copy, 35)[0] == 0)
        return number;
    memcpy(image, copy, len);
    memset(answer, 0, answer_len);
    answer[2] = 255;
    return D64_DISK_FULL;
}

/* 18: the layout is cut to a byte: 256 is taken for 0. */
static uint32_t check_cuts_the_layout(uint32_t layout, const uint8_t *image, size_t len, uint8_t *answer, size_t answer_len)
{
    return d64_check(layout & 255, image, len, answer, answer_len);
}

/* 19: in layout 2 a wrong count on tracks 36 to 40 is not seen. */
static uint32_t check_misses_last_counts(uint32_t layout, const uint8_t *image, size_t len, uint8_t *answer, size_t answer_len)
{
    uint32_t number = d64_check(layout, image, len, answer, answer_len);
    if (layout != D64_LAYOUT_DOLPHIN || number != D64_WRONG_MAP || answer[0] < 36 || answer[1] != 255)
        return number;
    memset(answer, 0, answer_len);
    answer[2] = 255;
    return D64_DONE;
}

/* 20: in layout 1 a store that takes sectors of track 40 writes its entry where layout 2 has it too. */
static uint32_t store_writes_both(uint32_t layout, uint8_t *image, size_t len, const uint8_t *name, size_t name_len, uint32_t kind,
                                  const uint8_t *data, size_t data_len, uint8_t *answer, size_t answer_len)
{
    keep(image, len);
    uint32_t number = d64_store(layout, image, len, name, name_len, kind, data, data_len, answer, answer_len);
    if (number == 0 && layout == D64_LAYOUT_SPEEDDOS && map_entry(layout, image, 40)[0] != map_entry(layout, copy, 40)[0])
        memcpy(map_entry(D64_LAYOUT_DOLPHIN, image, 40), map_entry(layout, image, 40), 4);
    return number;
}

/* 21: a scratch leaves the last byte of 40/16. */
static uint32_t scratch_leaves_the_end(uint32_t layout, uint8_t *image, size_t len, const uint8_t *name, size_t name_len,
                                       uint8_t *answer, size_t answer_len)
{
    keep(image, len);
    uint32_t number = d64_scratch(layout, image, len, name, name_len, answer, answer_len);
    if (number == 0 && len == D64_IMAGE40_BYTES)
        image[len - 1] = copy[len - 1];
    return number;
}

/* 22: the sum of a listing in layout 1 has the counts that layout 2 has. */
static uint32_t listing_sums_others(uint32_t layout, const uint8_t *track18, size_t len, uint8_t *text, size_t text_len,
                                    uint8_t *answer, size_t answer_len)
{
    uint32_t other = layout == D64_LAYOUT_SPEEDDOS ? D64_LAYOUT_DOLPHIN : layout;
    return d64_listing(other, track18, len, text, text_len, answer, answer_len);
}

const struct library *tested_library(void)
{
    static struct library wrong;
    if (wrong.check != NULL)
        return &wrong;
    wrong = (struct library){d64_check, d64_format, d64_read, d64_store, d64_scratch, d64_tell, d64_listing};
    const char *which = getenv("WRONG");
    switch (which != NULL ? atoi(which) : 0) {
    case 1: wrong.scratch = scratch_leaves_a_byte; break;
    case 2: wrong.check = check_takes_counted; break;
    case 3: wrong.read = read_writes_more; break;
    case 4: wrong.store = store_marks_first; break;
    case 5: wrong.tell = tell_cuts_position; break;
    case 6: wrong.listing = listing_reads_beyond; break;
    case 7: wrong.check = check_misses_high_counts; break;
    case 8: wrong.store = store_leaves_junk; break;
    case 9: wrong.store = store_of_full_sectors; break;
    case 10: wrong.scratch = scratch_leaves_usr; break;
    case 11: wrong.store = store_clears_bits; break;
    case 12: wrong.check = check_names_the_highest; break;
    case 13: wrong.store = store_names_no_sector; break;
    case 14: wrong.scratch = scratch_names_a_spare_bit; break;
    case 15: wrong.check = check_loses_masks; break;
    case 16: wrong.check = check_cuts_counts; break;
    case 17: wrong.store = store_misses_room; break;
    case 18: wrong.check = check_cuts_the_layout; break;
    case 19: wrong.check = check_misses_last_counts; break;
    case 20: wrong.store = store_writes_both; break;
    case 21: wrong.scratch = scratch_leaves_the_end; break;
    case 22: wrong.listing = listing_sums_others; break;
    default: break;
    }
    return &wrong;
}
