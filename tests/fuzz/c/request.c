#include "request.h"

#include <stdio.h>
#include <stdlib.h>
#include <string.h>

#include "library.h"
#include "oracle.h"
#include "tally.h"

uint8_t filling[2 * MOST_LENT];

static const struct library oracle = {
    oracle_check, oracle_format, oracle_read, oracle_store, oracle_scratch, oracle_tell, oracle_listing,
};
static struct lent lent_name, lent_data, lent_output, lent_answer, lent_track18;
static uint8_t owed_output[MOST_LENT], owed_answer[256];
static bool trace;
static unsigned made; /* calls of this input */

/*
 * What is answered guides the fuzzer too, since the archive's code has no counters: each pair of a call with its
 * number and the one before it; each track, sector and slot of a fault; each length of a name; the bytes in the last
 * sector of a file that is stored, by its kind, 1 or 2; and how many sectors a file has.
 */
#define ANSWERS 18
__attribute__((used, section("__libfuzzer_extra_counters")))
static struct {
    uint8_t pairs[CALLS * ANSWERS][CALLS * ANSWERS];
    uint8_t places[ANSWERS][3][256];
    uint8_t names[CALLS * ANSWERS][18];
    uint8_t stored[2][254];
    uint8_t sectors[CALLS][128];
} met;
static unsigned last_met;

/* The memory of one side. */
struct side {
    struct piece image, name, data, output, answer, track18;
};

void requests_prepare(struct disk *disk)
{
    uint64_t state = 0xD64;
    for (size_t i = 0; i < sizeof filling; i++) {
        state = state * 6364136223846793005u + 1442695040888963407u;
        filling[i] = (uint8_t)(state >> 56);
    }
    trace = getenv("TRACE") != NULL;
    tally_at_exit();
    lent_reserve(&disk->lent, MOST_LENT);
    lent_reserve(&lent_name, MOST_LENT);
    lent_reserve(&lent_data, MOST_LENT);
    lent_reserve(&lent_output, MOST_LENT);
    lent_reserve(&lent_answer, sizeof owed_answer);
    lent_reserve(&lent_track18, MOST_LENT);
}

void requests_begin(void)
{
    made = 0;
    last_met = 0;
}

static uint32_t run(const struct library *library, uint32_t layout, const struct request *request, const struct side *m)
{
    struct piece i = m->image, n = m->name, d = m->data, o = m->output, a = m->answer, t = m->track18;
    switch (request->call) {
    case CHECK: return library->check(layout, i.start, i.len, a.start, a.len);
    case FORMAT:
        return library->format(layout, i.start, i.len, n.start, n.len, request->ids[0], request->ids[1], a.start, a.len);
    case READ: return library->read(layout, i.start, i.len, n.start, n.len, o.start, o.len, a.start, a.len);
    case STORE:
        return library->store(layout, i.start, i.len, n.start, n.len, request->kind, d.start, d.len, a.start, a.len);
    case SCRATCH: return library->scratch(layout, i.start, i.len, n.start, n.len, a.start, a.len);
    case TELL: return library->tell(layout, i.start, i.len, request->position, o.start, o.len, a.start, a.len);
    default: return library->listing(layout, t.start, t.len, o.start, o.len, a.start, a.len);
    }
}

static void describe(const struct disk *disk, const struct request *request)
{
    fprintf(stderr, "call %u: %s in layout %u, name", made, call_names[request->call], disk->named);
    for (size_t i = 0; i < request->name_len && i < 20; i++)
        fprintf(stderr, " %02X", request->name[i]);
    fprintf(stderr, " (%zu bytes), kind %u, data %zu bytes, room %zu, position %zu, track 18 %zu bytes, block %zu\n",
            request->name_len, request->kind, request->data_len, request->room, request->position,
            request->track18_len, request->block);
}

/* Says what differs between a piece as the library left it and what is owed; gives how much does. */
static int differences(const char *what, const struct lent *lent, const uint8_t *owed)
{
    const struct piece *piece = &lent->piece;
    size_t at = first_difference(piece->start, owed, piece->len);
    bool touched = !guards_unchanged(lent);
    if (at < piece->len)
        fprintf(stderr, "  %s: byte %zu is $%02X, not $%02X\n", what, at, piece->start[at], owed[at]);
    if (touched)
        fprintf(stderr, "  %s: a byte beside it is changed\n", what);
    return (at < piece->len) + touched;
}

/* Track 18 of an image, with what follows it where more is asked for; of other sizes, all. */
static struct piece track18_of(struct disk *disk, const struct request *request)
{
    size_t most = disk->len - (disk_whole(disk) ? D64_TRACK18_OFFSET : 0);
    uint8_t *start = disk->owed + (disk_whole(disk) ? D64_TRACK18_OFFSET : 0);
    bool asked = disk_whole(disk) && request->track18_len < most;
    return (struct piece){start, asked ? request->track18_len : most};
}

static void lend_all(const struct request *request, const struct side *owed)
{
    unsigned place = request->place;
    lend(&lent_name, request->name, request->name_len, place);
    lend(&lent_data, request->data, request->data_len, place);
    lend(&lent_output, filling, request->room, place);
    lend(&lent_answer, filling, request->block, place);
    if (request->call == LISTING)
        lend(&lent_track18, owed->track18.start, owed->track18.len, place);
    else
        lend(&lent_track18, NULL, 0, place);
}

/* The number is one of enum d64_answer. */
static void remember(const struct request *request, uint32_t number)
{
    unsigned now = (unsigned)request->call * ANSWERS + number;
    met.pairs[last_met][now] = 1;
    last_met = now;
    met.names[now][request->name_len < 17 ? request->name_len : 17] = 1;
    if (request->block != D64_BLOCK_BYTES)
        return;
    for (unsigned i = 0; i < 3; i++)
        met.places[number][i][owed_answer[i]] = 1;
    unsigned sectors = owed_answer[7] + 256u * owed_answer[8];
    met.sectors[request->call][sectors < 64 ? sectors : 64 + sectors / 16] = 1;
    if (request->call == STORE && number == D64_DONE)
        met.stored[request->kind & 1][request->data_len % 254] = 1;
}

/* Compares all memory that was lent with what the oracle left. */
static int all_differences(const struct disk *disk, const struct side *owed)
{
    int found = differences("answer", &lent_answer, owed->answer.start);
    found += differences("output", &lent_output, owed->output.start);
    found += differences("name", &lent_name, owed->name.start);
    found += differences("data", &lent_data, owed->data.start);
    found += differences("track 18", &lent_track18, owed->track18.start);
    return found + differences("image", &disk->lent, owed->image.start);
}

void request_compare(struct disk *disk, const struct request *request)
{
    struct side owed = {
        {disk->owed, disk->len}, {(uint8_t *)request->name, request->name_len},
        {(uint8_t *)request->data, request->data_len}, {owed_output, request->room}, {owed_answer, request->block},
        track18_of(disk, request),
    };
    memcpy(owed_output, filling, request->room);
    memcpy(owed_answer, filling, request->block);
    lend_all(request, &owed);
    struct side lent = {
        lent_piece(&disk->lent), lent_piece(&lent_name), lent_piece(&lent_data), lent_piece(&lent_output),
        lent_piece(&lent_answer), lent_piece(&lent_track18),
    };
    if (trace)
        describe(disk, request);
    uint32_t number = run(tested_library(), disk->named, request, &lent), due = run(&oracle, disk->named, request, &owed);
    if (number != due)
        fprintf(stderr, "  number: %u, not %u\n", number, due);
    bool named = tally(request->call, disk->named, due, owed_answer);
    if (!named)
        fprintf(stderr, "  number: %u, which d64.h does not name for this call\n", due);
    if (all_differences(disk, &owed) + (number != due) + !named != 0) {
        fprintf(stderr, "DIFFERENCE from the independent program in ");
        describe(disk, request);
        abort();
    }
    if (trace)
        fprintf(stderr, "  %u\n", number);
    remember(request, due);
    if (request->call == CHECK && request->block == D64_BLOCK_BYTES)
        tally_disk(disk, due, owed_answer);
    made++;
}
