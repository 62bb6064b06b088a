/* The fuzzer's entry: decodes an input (program.h), and compares the archive with the independent program over it. */
#include <stdlib.h>
#include <string.h>

#include "damage.h"
#include "decode.h"
#include "oracle.h"

static struct disk disk;
static uint8_t whole_input[MOST_LENT];

/* The start images, made once: making them is the generator's work and not the calls'. */
static struct start {
    uint8_t *bytes;
    size_t len;
} *starts[LAYOUTS];
static size_t start_count;

int LLVMFuzzerInitialize(int *argc, char ***argv)
{
    (void)argc, (void)argv;
    requests_prepare(&disk);
    start_count = oracle_starts();
    for (uint32_t layout = 0; layout < LAYOUTS; layout++) {
        starts[layout] = calloc(start_count, sizeof **starts);
        for (size_t i = 0; i < start_count; i++) {
            struct start *start = &starts[layout][i];
            start->len = oracle_start(layout, i, whole_input, sizeof whole_input);
            start->bytes = malloc(start->len + 1);
            memcpy(start->bytes, whole_input, start->len);
        }
    }
    return 0;
}

static void compare(struct request request)
{
    request_compare(&disk, &request);
}

static void compare_listing(void)
{
    struct request request = plain_request(LISTING);
    request.room = D64_LISTING_BYTES;
    compare(request);
}

static void compare_tell(size_t position)
{
    struct request request = plain_request(TELL);
    request.position = position;
    request.room = D64_ENTRY_BYTES;
    compare(request);
}

/* A call with a name: of the file with this number among those on the disk, or of one that is new. */
static void compare_named(enum call call, unsigned file, bool fresh)
{
    uint8_t name[16] = "NEW";
    struct request request = plain_request(call);
    request.name = name;
    request.name_len = fresh ? 3 : name_in_slot(&disk, file_slot(&disk, file), name);
    request.kind = 2;
    request.room = call == READ ? MOST_LENT : 0;
    request.data = filling;
    request.data_len = call == STORE ? 300 : 0;
    compare(request);
}

/* The calls that are made on an image as it stands. */
static void fixed_calls(void)
{
    compare(plain_request(CHECK));
    compare_listing();
    for (unsigned file = 0; file < 3; file++) {
        compare_named(READ, file, false);
        compare_tell(file);
    }
    compare_tell(143);
    compare_named(SCRATCH, 1, false);
    compare_named(STORE, 0, true);
    compare_named(READ, 0, true);
    compare_named(SCRATCH, 0, true);
    compare_named(FORMAT, 0, true);
}

static void raw_track18(const uint8_t *bytes, size_t len)
{
    disk_start(&disk, starts[disk.layout][0].bytes, starts[disk.layout][0].len, 0);
    for (size_t i = 0; i < len && i < D64_TRACK18_BYTES; i++)
        disk_poke(&disk, D64_TRACK18_OFFSET + i, bytes[i]);
    fixed_calls();
}

/* The start image, of a wrong size where the input asks for one. */
static void start_program(struct input *input)
{
    static const size_t wrong[] = {0, 1, 4864, 91392, 96256, 174592, 174847, 174849, 175104, 175531, 196608, 174848, 196607, 196609};
    const struct start *start = &starts[disk.layout][next_byte(input) % start_count];
    uint8_t size = next_byte(input), place = next_byte(input);
    if (size <= RIGHT_UP_TO) {
        disk_start(&disk, start->bytes, start->len, place);
        return;
    }
    memset(whole_input, 0xA5, sizeof whole_input);
    memcpy(whole_input, start->bytes, start->len);
    disk_start(&disk, whole_input, wrong[size % (sizeof wrong / sizeof *wrong)], place);
}

static void run_program(struct input *input)
{
    unsigned operations = 0, calls = 0;
    start_program(input);
    while (input->at < input->end && operations++ < MOST_OPERATIONS && calls < MOST_CALLS) {
        enum operation operation = next_byte(input) % OPERATIONS;
        if (operation < OP_CHECK) {
            damage(&disk, operation, input);
            continue;
        }
        struct request request;
        decode_call(&disk, operation, input, &request);
        compare(request);
        calls++;
    }
}

/* The layout of the image and of the calls: 0, 1 or 2 for both, and the last numbers for calls in none. */
static void choose_layout(unsigned number)
{
    static const uint32_t unknown[] = {3, 255, 256, UINT32_MAX};
    disk.layout = disk.named = number % LAYOUTS;
    if (number >= FIRST_UNKNOWN)
        disk.named = unknown[number - FIRST_UNKNOWN];
}

int LLVMFuzzerTestOneInput(const uint8_t *bytes, size_t len)
{
    struct input input = {bytes, bytes + len};
    requests_begin();
    uint8_t mode = next_byte(&input);
    choose_layout(mode >> 3);
    switch (mode & 7) {
    case RAW_IMAGE:
        disk_start(&disk, input.at, (size_t)(input.end - input.at), 0);
        fixed_calls();
        break;
    case RAW_TRACK18: raw_track18(input.at, (size_t)(input.end - input.at)); break;
    default: run_program(&input);
    }
    compare(plain_request(CHECK));
    compare_listing();
    return 0;
}
