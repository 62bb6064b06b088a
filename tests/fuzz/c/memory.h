/*
 * Memory lent to the library under test. Each piece lies against a page that nobody may touch, at its end or at its
 * start, or between guard bytes; on a side without such a page there are guard bytes always.
 */
#ifndef MEMORY_H
#define MEMORY_H

#include <stdbool.h>
#include <stddef.h>
#include <stdint.h>

/* The most bytes that one piece may have. */
#define MOST_LENT 200704

struct piece {
    uint8_t *start;
    size_t len;
};

struct lent {
    uint8_t *first, *end; /* of the pages that may be touched */
    struct piece piece;
    bool null; /* lent as a null pointer */
};

/* Reserves the pages for pieces of at most 'most' bytes; ends the program if it cannot. */
void lent_reserve(struct lent *lent, size_t most);

/*
 * Puts a copy of the content where 'place' says: 0 against the page behind it, 1 against the page before it, else
 * between guard bytes, at an odd or even address. An empty piece is a null pointer if bit 7 of the place is set.
 */
void lend(struct lent *lent, const uint8_t *content, size_t len, unsigned place);

/* The piece as a caller lends it. */
struct piece lent_piece(const struct lent *lent);

/* Whether the guard bytes around the piece are as they were. */
bool guards_unchanged(const struct lent *lent);

/* Where two pieces of one length differ first, or the length where they do not. */
size_t first_difference(const uint8_t *left, const uint8_t *right, size_t len);

#endif
