/* Built without a sanitizer: it compares whole images, and a compare of the harness is nothing to learn from. */
#define _DEFAULT_SOURCE /* MAP_ANONYMOUS */
#include "memory.h"

#include <stdio.h>
#include <stdlib.h>
#include <string.h>
#include <sys/mman.h>
#include <unistd.h>

#define GUARD 64
#define GUARD_BYTE(at) ((uint8_t)(0x80 | ((uintptr_t)(at) % 127)))

void lent_reserve(struct lent *lent, size_t most)
{
    size_t page = (size_t)sysconf(_SC_PAGESIZE);
    size_t pages = (most + 2 * GUARD + 16 + page - 1) / page;
    uint8_t *whole = mmap(NULL, (pages + 2) * page, PROT_NONE, MAP_PRIVATE | MAP_ANONYMOUS, -1, 0);
    if (whole == MAP_FAILED || mprotect(whole + page, pages * page, PROT_READ | PROT_WRITE) != 0) {
        perror("memory to lend");
        exit(1);
    }
    lent->first = whole + page;
    lent->end = lent->first + pages * page;
}

static uint8_t *placed(const struct lent *lent, size_t len, unsigned place)
{
    switch (place & 3) {
    case 0: return lent->end - len;
    case 1: return lent->first;
    default: return lent->first + GUARD + ((place >> 2) & 15);
    }
}

/* The guard bytes before the piece (side 0) and behind it (side 1): fewer than GUARD where the pages end. */
static struct piece guard(const struct lent *lent, int side)
{
    uint8_t *start = lent->piece.start, *end = start + lent->piece.len;
    size_t before = (size_t)(start - lent->first), behind = (size_t)(lent->end - end);
    if (side == 0) {
        size_t len = before < GUARD ? before : GUARD;
        return (struct piece){start - len, len};
    }
    return (struct piece){end, behind < GUARD ? behind : GUARD};
}

void lend(struct lent *lent, const uint8_t *content, size_t len, unsigned place)
{
    lent->piece = (struct piece){placed(lent, len, place), len};
    lent->null = len == 0 && (place & 0x80) != 0;
    if (len != 0)
        memcpy(lent->piece.start, content, len);
    for (int side = 0; side < 2; side++) {
        struct piece bytes = guard(lent, side);
        for (size_t i = 0; i < bytes.len; i++)
            bytes.start[i] = GUARD_BYTE(bytes.start + i);
    }
}

struct piece lent_piece(const struct lent *lent)
{
    return lent->null ? (struct piece){NULL, 0} : lent->piece;
}

bool guards_unchanged(const struct lent *lent)
{
    for (int side = 0; side < 2; side++) {
        struct piece bytes = guard(lent, side);
        for (size_t i = 0; i < bytes.len; i++)
            if (bytes.start[i] != GUARD_BYTE(bytes.start + i))
                return false;
    }
    return true;
}

size_t first_difference(const uint8_t *left, const uint8_t *right, size_t len)
{
    enum { BLOCK = 4096 };
    for (size_t from = 0; from < len; from += BLOCK) {
        size_t to = len - from < BLOCK ? len : from + BLOCK;
        uint8_t differing = 0;
        for (size_t i = from; i < to; i++)
            differing |= left[i] ^ right[i];
        if (differing == 0)
            continue;
        while (left[from] == right[from])
            from++;
        return from;
    }
    return len;
}
