/* The seven calls of d64.h as a table: the archive, the oracle and wrong libraries are called by the same code. */
#ifndef LIBRARY_H
#define LIBRARY_H

#include "d64.h"

struct library {
    uint32_t (*check)(uint32_t, const uint8_t *, size_t, uint8_t *, size_t);
    uint32_t (*format)(uint32_t, uint8_t *, size_t, const uint8_t *, size_t, uint8_t, uint8_t, uint8_t *, size_t);
    uint32_t (*read)(uint32_t, const uint8_t *, size_t, const uint8_t *, size_t, uint8_t *, size_t, uint8_t *, size_t);
    uint32_t (*store)(uint32_t, uint8_t *, size_t, const uint8_t *, size_t, uint32_t, const uint8_t *, size_t, uint8_t *, size_t);
    uint32_t (*scratch)(uint32_t, uint8_t *, size_t, const uint8_t *, size_t, uint8_t *, size_t);
    uint32_t (*tell)(uint32_t, const uint8_t *, size_t, size_t, uint8_t *, size_t, uint8_t *, size_t);
    uint32_t (*listing)(uint32_t, const uint8_t *, size_t, uint8_t *, size_t, uint8_t *, size_t);
};

/* archive.c: the archive. wrong.c: the archive with a fault, to show that the fuzzer finds it. */
const struct library *tested_library(void);

#endif
