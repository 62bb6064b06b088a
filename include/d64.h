/*
 * d64.h - check, format and list D64 disk images of 35 or 40 tracks without error bytes, and read, store and
 * scratch the files on them.
 *
 * The caller lends all memory; the library allocates nothing and keeps nothing between calls. Every call but
 * d64_format() and d64_listing() runs the whole check itself, so d64_check() need not be called first.
 *
 * Slices. Memory is lent as a pointer and a length in bytes. A null pointer with length 0 is an empty slice; any
 * other pointer is valid for its length. No memory that a call may write shares a byte with any other memory lent
 * to that call: this is a premise, and not a refusal.
 *
 * Layouts. Every call takes the disk's layout first; any number but these three is refused. It is not guessed from
 * the image: 1 and 2 share a size and not a map, and an image may be accepted in both. Name the same layout in all
 * calls on an image: a store in one of them may leave it refused in the other.
 *
 *                                tracks   sectors     bytes     a track's map entry in 18/0, four bytes
 *     0   D64_LAYOUT_35            35       683      174,848    at 4 * track
 *     1   D64_LAYOUT_SPEEDDOS      40       768      196,608    the same; from track 36 on at $C0, $C4 .. $D0
 *     2   D64_LAYOUT_DOLPHIN       40       768      196,608    the same; from track 36 on at $AC, $B0 .. $BC
 *
 * Tracks 36 to 40 have 17 sectors each. Where one layout has no entry, the bytes of another's are like any others of
 * 18/0: ignored, left as they are, and 0 after d64_format().
 *
 * Answers. Each call returns one number of enum d64_answer, and no other. It fills the answer block, nine bytes,
 * when it is done and when it refuses:
 *
 *     byte   0       1       2     3   4   5   6   7   8
 *        +-------+--------+------+---+---+---+---+---+---+
 *        | track | sector | slot |    length     |sectors|     length and sectors: low byte first
 *        +-------+--------+------+---+---+---+---+---+---+
 *
 * Track, sector and slot are the place of a fault. They are 0, 0, 255 where enum d64_answer names no place, so also
 * when the call is done. Slots are numbered 0 to 143 through the directory in link order, eight to a sector, empty
 * ones counted; the slot is 255 where the fault is in no slot. A wrong map entry has the lowest sector of its track
 * whose bit is wrong; the sector is 255 where all those bits are right, so that only the count is wrong. A refusal
 * has length 0 and 0 sectors.
 *
 * Old bytes. Sectors that d64_scratch() or d64_format() gives back are all zeros for as long as they are free. An
 * image from elsewhere may hold old bytes in its free sectors and behind a file's end; it is accepted all the same,
 * and only d64_format() clears all of them.
 *
 * Spare bits. A track's map entry has 24 bits, and no track has more than 21 sectors. The bits past a track's last
 * sector are ignored, not counted and no fault's place; no call but d64_format(), which writes 0, changes them.
 */
#ifndef D64_H
#define D64_H

#include <stddef.h>
#include <stdint.h>

#ifdef __cplusplus
extern "C" {
#endif

#define D64_LAYOUT_35 0          /* 35 tracks */
#define D64_LAYOUT_SPEEDDOS 1    /* 40 tracks, SpeedDOS */
#define D64_LAYOUT_DOLPHIN 2     /* 40 tracks, Dolphin */
#define D64_IMAGE_BYTES 174848   /* an image of layout 0: 683 sectors of 256 bytes */
#define D64_IMAGE40_BYTES 196608 /* an image of layout 1 or 2: 768 sectors of 256 bytes */
#define D64_TRACK18_BYTES 4864   /* track 18, the map and the directory: 19 sectors */
#define D64_TRACK18_OFFSET 91392 /* where track 18 starts in an image, in each layout */
#define D64_BLOCK_BYTES 9        /* the answer block */
#define D64_ENTRY_BYTES 25       /* what d64_tell() writes */
#define D64_LISTING_BYTES 6234   /* the longest text of d64_listing() */

/*
 * What a call returns. Where several apply: 16 for the answer block, then 17, then 1, then 9 and 10, then 2 to 8 in
 * the order of the check, then 11 to 16.
 */
enum d64_answer {
    D64_DONE = 0,
    D64_WRONG_SIZE = 1,      /* the image has not the layout's size, or track 18 is not 4,864 bytes */
    D64_BAD_LINK = 2,        /* a bad link; place: the sector holding it, slot */
    D64_OWNED = 3,           /* a link to a sector that is owned already; place: the sector holding it, slot */
    D64_WRONG_KIND = 4,      /* kind or flags not carried; place: directory sector, slot */
    D64_WRONG_NAME = 5,      /* a name on disk breaks the rule; place: directory sector, slot */
    D64_SAME_NAME = 6,       /* a name is on disk in an earlier slot; place: directory sector, slot */
    D64_WRONG_COUNT = 7,     /* a file's sector count is wrong; place: directory sector, slot */
    D64_WRONG_MAP = 8,       /* a map entry is wrong: the bit of a sector, or the count; place: track, the lowest
                                sector whose bit is wrong (255 where only the count is), slot 255 */
    D64_BAD_NAME = 9,        /* the name asked for is empty, over 16 bytes, or holds $A0 */
    D64_BAD_KIND = 10,       /* the kind asked for is not 1 or 2 */
    D64_READ_ONLY = 11,      /* the DOS version forbids writing */
    D64_NAME_TAKEN = 12,     /* the name to store is there already */
    D64_NOT_FOUND = 13,      /* the name, or the position, is not there */
    D64_DIRECTORY_FULL = 14, /* no empty slot and no free sector on track 18 */
    D64_DISK_FULL = 15,      /* more sectors needed than are free off track 18 */
    D64_SHORT = 16,          /* the output is shorter than what is to be written, or the block is not nine bytes */
    D64_UNKNOWN_LAYOUT = 17  /* the layout is not 0, 1 or 2 */
};

/*
 * d64_check() checks an image: its size, the directory, each file's entry, chain and count, and the map, whose
 * spare bits may be 0 or 1.
 * Reads:   image.  Writes: answer.  No written buffer may overlap another buffer.
 * Returns: D64_DONE, or the first fault met: D64_UNKNOWN_LAYOUT (17); D64_WRONG_SIZE (1); D64_BAD_LINK (2) or
 *          D64_OWNED (3) along the directory; for one slot after the other D64_WRONG_KIND (4), D64_WRONG_NAME (5),
 *          D64_SAME_NAME (6), D64_BAD_LINK (2) or D64_OWNED (3) along the file's chain, D64_WRONG_COUNT (7); for
 *          one track after the other D64_WRONG_MAP (8), in the bits of its sectors from 0 up, then in its count.
 * Done:    answer has length 0 and 0 sectors.
 * Refused: answer has the place of the fault, length 0 and 0 sectors.
 * An answer_len other than 9 returns D64_SHORT before all else and writes nothing.
 */
uint32_t d64_check(uint32_t layout, const uint8_t *image, size_t image_len, uint8_t *answer, size_t answer_len);

/*
 * d64_format() makes the image a disk without files, whatever was on it. The disk's name is given without padding;
 * its id is two bytes of any value. No check is run.
 * Reads:   name.  Writes: image, answer.  No written buffer may overlap another buffer.
 * Returns: D64_DONE, or the first that applies of D64_UNKNOWN_LAYOUT (17), D64_WRONG_SIZE (1), D64_BAD_NAME (9).
 * Done:    image is a fresh disk: 18/0 has the layout's map, its spare bits 0, DOS version $41, name and id, 18/1
 *          is an empty directory, every other sector is zero; answer has length 0 and 0 sectors. Free off track 18
 *          are 664 sectors in layout 0, and 749 in the others.
 * Refused: no byte of image changes; answer has the place of the fault, length 0 and 0 sectors.
 * An answer_len other than 9 returns D64_SHORT before all else and writes nothing.
 */
uint32_t d64_format(uint32_t layout, uint8_t *image, size_t image_len, const uint8_t *name, size_t name_len,
                    uint8_t id1, uint8_t id2, uint8_t *answer, size_t answer_len);

/*
 * d64_read() copies the file 'name' to the start of 'out'. The name is given without padding; no byte of it stands
 * for another.
 * Reads:   image, name.  Writes: out, answer.  No written buffer may overlap another buffer.
 * Returns: D64_DONE, or the first that applies of D64_UNKNOWN_LAYOUT (17), D64_WRONG_SIZE (1), D64_BAD_NAME (9), a
 *          fault that d64_check() finds (2 to 8), D64_NOT_FOUND (13), D64_SHORT (16) if out is shorter than the
 *          file.
 * Done:    the file is at the start of out, the rest of out is unchanged; answer has the file's length and the
 *          sectors visited, which is the length of its chain.
 * Refused: out is unchanged; answer has the place of the fault, length 0 and 0 sectors.
 * An answer_len other than 9 returns D64_SHORT before all else and writes nothing.
 */
uint32_t d64_read(uint32_t layout, const uint8_t *image, size_t image_len, const uint8_t *name, size_t name_len,
                  uint8_t *out, size_t out_len, uint8_t *answer, size_t answer_len);

/*
 * d64_store() stores 'data' as a new file 'name' of kind 1 (SEQ) or 2 (PRG). Any other kind is refused, 3 (USR)
 * too: USR files can no longer be stored, but those on an image are still accepted, listed, told, read and
 * scratched. The name is given without padding. The file takes the first free sectors of tracks 17 down to 1, then
 * 19 up to the layout's last; a directory without an empty slot takes the lowest free sector of track 18.
 * Reads:   image, name, data.  Writes: image, answer.  No written buffer may overlap another buffer.
 * Returns: D64_DONE, or the first that applies of D64_UNKNOWN_LAYOUT (17), D64_WRONG_SIZE (1), D64_BAD_NAME (9),
 *          D64_BAD_KIND (10), a fault that d64_check() finds (2 to 8), D64_READ_ONLY (11), D64_NAME_TAKEN (12),
 *          D64_DIRECTORY_FULL (14), D64_DISK_FULL (15).
 * Done:    the file's sectors, its slot, the map and, where the directory grew, the new directory sector and the
 *          link to it are written, no other byte of image and no spare bit of the map changes; answer has the
 *          file's length and its number of sectors.
 * Refused: no byte of image changes; answer has the place of the fault, length 0 and 0 sectors.
 * An answer_len other than 9 returns D64_SHORT before all else and writes nothing.
 */
uint32_t d64_store(uint32_t layout, uint8_t *image, size_t image_len, const uint8_t *name, size_t name_len,
                   uint32_t kind, const uint8_t *data, size_t data_len, uint8_t *answer, size_t answer_len);

/*
 * d64_scratch() removes the file 'name', locked or not, and leaves zeros where its bytes were. The name is given
 * without padding; no byte of it stands for another.
 * Reads:   image, name.  Writes: image, answer.  No written buffer may overlap another buffer.
 * Returns: D64_DONE, or the first that applies of D64_UNKNOWN_LAYOUT (17), D64_WRONG_SIZE (1), D64_BAD_NAME (9), a
 *          fault that d64_check() finds (2 to 8), D64_READ_ONLY (11), D64_NOT_FOUND (13).
 * Done:    the file's sectors and bytes 2 to 31 of its slot are zero, the map has the sectors as free, no other
 *          byte of image and no spare bit of the map changes; answer has the length that the file had and its
 *          number of sectors.
 * Refused: no byte of image changes; answer has the place of the fault, length 0 and 0 sectors.
 * An answer_len other than 9 returns D64_SHORT before all else and writes nothing.
 */
uint32_t d64_scratch(uint32_t layout, uint8_t *image, size_t image_len, const uint8_t *name, size_t name_len,
                     uint8_t *answer, size_t answer_len);

/*
 * d64_tell() tells about the file at 'position', counted from 0 among the occupied slots, in 25 bytes:
 *
 *     byte   0    1 .. 16   17      18     19  20  21  22  23  24
 *        +------+--------+-------+--------+---+---+---+---+---+---+
 *        | type |  name  | track | sector | count |    length     |     count and length: low byte first
 *        +------+--------+-------+--------+---+---+---+---+---+---+
 *
 * The type is the byte on disk: $80 + kind, $C0 + kind for a locked file; the kind is 1 (SEQ), 2 (PRG) or 3 (USR).
 * The name is padded with $A0. Track and sector are the file's first sector; count is its number of sectors, length
 * its number of bytes.
 * Reads:   image.  Writes: entry, answer.  No written buffer may overlap another buffer.
 * Returns: D64_DONE, or the first that applies of D64_UNKNOWN_LAYOUT (17), D64_WRONG_SIZE (1), a fault that
 *          d64_check() finds (2 to 8), D64_NOT_FOUND (13) if no file has that position, D64_SHORT (16) if entry is
 *          shorter than 25 bytes.
 * Done:    the 25 bytes are at the start of entry, the rest of entry is unchanged; answer has length 0 and
 *          0 sectors.
 * Refused: entry is unchanged; answer has the place of the fault, length 0 and 0 sectors.
 * An answer_len other than 9 returns D64_SHORT before all else and writes nothing.
 */
uint32_t d64_tell(uint32_t layout, const uint8_t *image, size_t image_len, size_t position,
                  uint8_t *entry, size_t entry_len, uint8_t *answer, size_t answer_len);

/*
 * d64_listing() writes the sleeve listing to the start of 'text', in uppercase hexadecimal, each line ended by LF
 * and no NUL after the last: the disk's name and id; for each file its type, first sector, name and count; the sum
 * of the layout's free counts off track 18. It is lent track 18 alone, which is the D64_TRACK18_BYTES bytes of an
 * image from D64_TRACK18_OFFSET on; chains and map are not checked.
 * Reads:   track18.  Writes: text, answer.  No written buffer may overlap another buffer.
 * Returns: D64_DONE, or the first that applies of D64_UNKNOWN_LAYOUT (17); D64_WRONG_SIZE (1); D64_BAD_LINK (2) or
 *          D64_OWNED (3) along the directory; for one slot after the other D64_WRONG_KIND (4), D64_WRONG_NAME (5),
 *          D64_SAME_NAME (6); D64_SHORT (16) if text is shorter than the listing. D64_LISTING_BYTES always suffice.
 * Done:    the listing is at the start of text, the rest of text is unchanged; answer has the listing's length and
 *          0 sectors.
 * Refused: text is unchanged; answer has the place of the fault, length 0 and 0 sectors.
 * An answer_len other than 9 returns D64_SHORT before all else and writes nothing.
 */
uint32_t d64_listing(uint32_t layout, const uint8_t *track18, size_t track18_len,
                     uint8_t *text, size_t text_len, uint8_t *answer, size_t answer_len);

#ifdef __cplusplus
}
#endif

#endif
