/*
 * How the fuzzer changes an input: half of the time as libFuzzer does, byte by byte, else a program's operations as a
 * whole, so that a call that is put in leaves those behind it as they were.
 */
#include <stdint.h>
#include <string.h>

#include "operations.h"
#include "program.h"

size_t LLVMFuzzerMutate(uint8_t *bytes, size_t len, size_t most);
size_t LLVMFuzzerCustomMutator(uint8_t *bytes, size_t len, size_t most, unsigned seed);

/* Mode, start image, size and place come before the operations. */
enum { HEAD = 4, LONGEST = 2048 };

/* Where an operation starts: the one with this number, or the end where there are fewer. */
static size_t operation_start(const uint8_t *bytes, size_t len, uint32_t number)
{
    size_t at = HEAD;
    while (at < len && number-- > 0)
        at += operation_length(bytes + at, len - at);
    return at < len ? at : len;
}

static uint32_t operations_of(const uint8_t *bytes, size_t len)
{
    uint32_t count = 0;
    for (size_t at = HEAD; at < len; count++)
        at += operation_length(bytes + at, len - at);
    return count;
}

/* Puts a random operation in the place of one that is there, between two, or at the end; or takes one out. */
static size_t change_operations(uint8_t *bytes, size_t len, size_t most, uint64_t *state)
{
    uint8_t operation[OPERATION_BYTES];
    size_t added = random_operation(state, operation);
    uint32_t count = operations_of(bytes, len), number = random_number(state) % (count + 1);
    size_t start = operation_start(bytes, len, number), end = start;
    uint32_t how = random_number(state) % 8;
    if (how == 0)
        added = 0;
    if (how <= 2)
        end = operation_start(bytes, len, number + 1);
    if (len + added > most)
        return len;
    memmove(bytes + start + added, bytes + end, len - end);
    memcpy(bytes + start, operation, added);
    return len - (end - start) + added;
}

size_t LLVMFuzzerCustomMutator(uint8_t *bytes, size_t len, size_t most, unsigned seed)
{
    uint64_t state = seed * 0x9E3779B97F4A7C15u + 1;
    uint32_t changes = 1 + random_number(&state) % 4;
    if (len < HEAD || len > LONGEST || (bytes[0] & 7) < PROGRAM || random_number(&state) % 2 == 0)
        return LLVMFuzzerMutate(bytes, len, most);
    if (random_number(&state) % 8 == 0)
        bytes[1] = (uint8_t)random_number(&state); /* the same on another start image */
    if (random_number(&state) % 16 == 0)
        bytes[0] = (uint8_t)((bytes[0] & 7) | random_number(&state) % LAYOUT_NUMBERS << 3); /* and in another layout */
    while (changes-- > 0)
        len = change_operations(bytes, len, most, &state);
    return len;
}
