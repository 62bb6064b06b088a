/* The library under test is one of the wrong libraries of tests/boundary, by its row: the environment's WRONG. */
#include <stdbool.h>
#include <stdio.h>
#include <stdlib.h>

#include "library.h"

bool wrong_choose(size_t row);
uint32_t wrong_check(uint32_t, const uint8_t *, size_t, uint8_t *, size_t);
uint32_t wrong_format(uint32_t, uint8_t *, size_t, const uint8_t *, size_t, uint8_t, uint8_t, uint8_t *, size_t);
uint32_t wrong_read(uint32_t, const uint8_t *, size_t, const uint8_t *, size_t, uint8_t *, size_t, uint8_t *, size_t);
uint32_t wrong_store(uint32_t, uint8_t *, size_t, const uint8_t *, size_t, uint32_t, const uint8_t *, size_t, uint8_t *, size_t);
uint32_t wrong_scratch(uint32_t, uint8_t *, size_t, const uint8_t *, size_t, uint8_t *, size_t);
uint32_t wrong_tell(uint32_t, const uint8_t *, size_t, size_t, uint8_t *, size_t, uint8_t *, size_t);
uint32_t wrong_listing(uint32_t, const uint8_t *, size_t, uint8_t *, size_t, uint8_t *, size_t);

const struct library *tested_library(void)
{
    static const struct library wrong = {
        wrong_check, wrong_format, wrong_read, wrong_store, wrong_scratch, wrong_tell, wrong_listing,
    };
    static bool chosen;
    const char *row = getenv("WRONG");
    if (!chosen && !wrong_choose(row != NULL ? (size_t)atol(row) : 0)) {
        fprintf(stderr, "no such row\n");
        _Exit(64);
    }
    chosen = true;
    return &wrong;
}
