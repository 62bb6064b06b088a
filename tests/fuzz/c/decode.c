#include "decode.h"

#include <string.h>

#include "oracle.h"

#define COUNT(table) (sizeof(table) / sizeof *(table))

/* A name as the last call was given it; long enough for a length whose low 16 bits are a good name's. */
static uint8_t name[66000];
static uint8_t spare[MOST_LENT];

struct request plain_request(enum call call)
{
    return (struct request){.call = call, .block = D64_BLOCK_BYTES, .track18_len = D64_TRACK18_BYTES};
}

size_t name_in_slot(const struct disk *disk, unsigned slot, uint8_t found[16])
{
    size_t len = 0;
    if (!disk_whole(disk))
        return 0;
    memcpy(found, disk->owed + slot_offset(slot) + 5, 16);
    while (len < 16 && found[len] != 0xA0)
        len++;
    return len;
}

/* Names that every input has at hand. */
static size_t pool_name(unsigned number)
{
    static const char *const pool[] = {
        "CODE", "A", "B", "SIXTEEN BYTES OK", "SIXTEEN BYTES OL", "*", "?", "CODES",
        "a", "CODE ", " CODE", "\x01", "\xFF\xFE", "\xC3ODE", "EIGHT BY", "NINE BYTE",
    };
    const char *chosen = pool[number % COUNT(pool)];
    memcpy(name, chosen, strlen(chosen));
    return strlen(chosen);
}

/* A name that breaks the rule: by its length, or by a byte $A0 within it. */
static size_t wrong_name(unsigned number, unsigned at)
{
    static const size_t lengths[] = {0, 17, 18, 32, 255, 256, 257, 272, 65536, 65537, 65552};
    memset(name, 'X', sizeof name);
    if (number % 16 < COUNT(lengths))
        return lengths[number % 16];
    name[at % 16] = 0xA0;
    return at % 16 + 1 + (at >> 4) % (16 - at % 16);
}

static size_t next_name(const struct disk *disk, struct input *input)
{
    struct three sort = next_three(input);
    size_t len;
    if (sort.kind % NAMES == FROM_POOL)
        return pool_name(sort.a);
    if (sort.kind % NAMES == WRONG)
        return wrong_name(sort.a, sort.b);
    if (sort.kind % NAMES == LITERAL) {
        for (len = 0; len < sort.a % (unsigned)LITERAL_LIMIT; len++)
            name[len] = next_byte(input);
        return len;
    }
    memset(name, 0, 20);
    len = name_in_slot(disk, file_slot(disk, sort.a), name);
    switch (sort.kind % NAMES) {
    case CUT: return sort.b < len ? sort.b : len;
    case LENGTHENED: name[len] = sort.b; return len + 1;
    case CHANGED: name[sort.b % 16] ^= (uint8_t)(1 << (sort.b >> 4) % 8); return len;
    default: return len;
    }
}

/* Bytes of a read's or listing's output, or of a store's data, that would just do. */
static size_t needed(const struct disk *disk, const struct request *request)
{
    uint8_t answer[D64_BLOCK_BYTES] = {0};
    size_t free_sectors = 0;
    if (!disk_whole(disk))
        return 0;
    if (request->call == READ)
        oracle_read(disk->named, disk->owed, disk->len, request->name, request->name_len, spare, sizeof spare, answer, 9);
    if (request->call == LISTING)
        oracle_listing(disk->named, disk->owed + D64_TRACK18_OFFSET, D64_TRACK18_BYTES, spare, sizeof spare, answer, 9);
    if (request->call != STORE)
        return answer[3] | (size_t)answer[4] << 8 | (size_t)answer[5] << 16;
    for (unsigned track = 1; track <= last_track(disk->layout); track++)
        free_sectors += track == 18 ? 0 : disk->owed[map_entry_offset(disk->layout, track)];
    return 254 * free_sectors;
}

static size_t next_amount(const struct disk *disk, const struct request *request, struct input *input)
{
    static const size_t edges[] = {
        0, 1, 2, 253, 254, 255, 256, 507, 508, 509, 510, 5000, 6233, 6234, 6235, 65535, 65536, 65537,
        168655, 168656, 168657, 168910, MOST_LENT, 190245, 190246, 190247,
    };
    struct three sort = next_three(input);
    size_t amount = 0;
    switch (sort.kind % AMOUNTS) {
    case AS_IS: return sort.a + 256 * (size_t)sort.b;
    case AT_EDGE: return edges[sort.a % COUNT(edges)];
    case AROUND_NEED: amount = needed(disk, request) + sort.a; break;
    default: amount = 254 * (size_t)sort.a + sort.b; break;
    }
    amount = amount < 128 ? 0 : amount - 128;
    return amount < MOST_LENT ? amount : MOST_LENT;
}

static size_t next_position(struct input *input)
{
    static const size_t far[] = {143, 144, 145, 255, 256, 65536, (size_t)1 << 32, SIZE_MAX, SIZE_MAX / 8 + 1};
    uint8_t position = next_byte(input);
    return position < 200 ? position : far[position % COUNT(far)];
}

/* 3, which a store took once, comes more often than the other wrong ones. */
static uint32_t next_kind(struct input *input)
{
    static const uint32_t usual[] = {1, 2, 1, 2, 1, 2, 1, 3};
    static const uint32_t wrong[] = {
        0, 3, 4, 5, 128, 129, 130, 131, 255, 256, 257, 258, 259, 65537, 0x80000001, UINT32_MAX,
    };
    uint8_t kind = next_byte(input);
    return kind < 200 ? usual[kind % COUNT(usual)] : wrong[kind % COUNT(wrong)];
}

static size_t next_of_sizes(size_t right, struct input *input)
{
    uint8_t size = next_byte(input);
    const size_t wrong[] = {0, 1, right - 1, right + 1, 2 * right, right / 2, right + 7, 256, 255};
    return size <= RIGHT_UP_TO ? right : wrong[size % COUNT(wrong)];
}

void decode_call(const struct disk *disk, enum operation operation, struct input *input, struct request *request)
{
    *request = plain_request((enum call)(operation - OP_CHECK));
    enum call call = request->call;
    request->place = next_byte(input);
    size_t block = next_of_sizes(D64_BLOCK_BYTES, input);
    request->block = block < 256 ? block : 255;
    if (call == FORMAT || call == READ || call == STORE || call == SCRATCH) {
        request->name = name;
        request->name_len = next_name(disk, input);
    }
    if (call == FORMAT) {
        request->ids[0] = next_byte(input);
        request->ids[1] = next_byte(input);
    }
    if (call == STORE) {
        request->kind = next_kind(input);
        request->data_len = next_amount(disk, request, input);
        request->data = filling + 509 * (size_t)next_byte(input);
    }
    if (call == TELL) {
        request->position = next_position(input);
        request->room = next_of_sizes(D64_ENTRY_BYTES, input);
    }
    if (call == LISTING)
        request->track18_len = next_of_sizes(D64_TRACK18_BYTES, input);
    if (call == READ || call == LISTING)
        request->room = next_amount(disk, request, input);
}
