/*
 * What an input of the fuzzer says. Its first byte is the mode: in its low three bits 0 is an image as it stands, 1 is
 * track 18 as it stands on a formatted disk, and all others are a program: the start image, a size, the place of the
 * image in memory, then operations, until the input ends. Its high five bits are the layout, which is that of the image
 * and of all calls, modulo 3; from 28 on the calls name a number that is none. Bytes past the end are 0.
 *
 * The low four bits of an operation's first byte say what it is; its arguments follow, most of one byte:
 *
 *   BYTE         where, offset, value
 *   LINK         where, target
 *   SLOT         slot, field, value
 *   MAP_ENTRY    track, which of its four bytes, value
 *   MAP_BIT      track, sector (bit 7: the count follows)
 *   REPAIR       what (1 counts of sectors, 2 map)
 *   COPY_SLOT    from, to
 *   COPY_SECTOR  where from, where to
 *   VERSION      value
 *   calls        place in memory, answer block, then for check: nothing; format: name, two ids; read: name, amount;
 *                store: name, kind, amount, filling; scratch: name; tell: position, room; listing: size, amount
 *
 * Where, target, name and amount have three bytes, the first of which is a kind; a literal name's bytes follow it.
 */
#ifndef PROGRAM_H
#define PROGRAM_H

enum mode { RAW_IMAGE, RAW_TRACK18, PROGRAM };
enum { LAYOUTS = 3, FIRST_UNKNOWN = 28, LAYOUT_NUMBERS = 32 };

enum operation {
    OP_BYTE, OP_LINK, OP_SLOT, OP_MAP_ENTRY, OP_MAP_BIT, OP_REPAIR, OP_COPY_SLOT, OP_COPY_SECTOR, OP_VERSION,
    OP_CHECK, OP_FORMAT, OP_READ, OP_STORE, OP_SCRATCH, OP_TELL, OP_LISTING, OPERATIONS
};

/* Sizes of the image and of answer blocks: right up to here, then by a table of wrong ones. */
enum { RIGHT_UP_TO = 239 };

enum where { ON_TRACK_18, IN_FILE, BY_NUMBER, WHERES = 4 };
enum target { TO_PLACE, TO_END, TO_FILE, TO_TRACK_18, TARGETS };
enum field { TYPE, FIRST_TRACK, FIRST_SECTOR, NAME_BYTE, COUNT_LOW, COUNT_HIGH, ANY_BYTE, NAME_PADDED, FIELDS };
enum name { OF_FILE, OF_FILE_TOO, FROM_POOL, LITERAL, CUT, LENGTHENED, CHANGED, WRONG, NAMES };
enum { LITERAL_LIMIT = 20 }; /* a literal name is shorter */
enum amount { AS_IS, AT_EDGE, AROUND_NEED, IN_SECTORS, AMOUNTS };

/* What one input may have at most; more of them teach nothing and take time. */
enum { MOST_OPERATIONS = 64, MOST_CALLS = 24 };

#endif
