/* The operations of a program as bytes (program.h): how long each is, and random ones. */
#ifndef OPERATIONS_H
#define OPERATIONS_H

#include <stddef.h>
#include <stdint.h>

/* More than the longest operation has. */
enum { OPERATION_BYTES = 48 };

/* The length of the operation that starts here, the first byte included; 'left' bytes are there. It may be longer. */
size_t operation_length(const uint8_t *operation, size_t left);

/* Writes an operation of any sort, with arguments of any sort; gives its length. The state is a random generator's. */
size_t random_operation(uint64_t *state, uint8_t operation[OPERATION_BYTES]);

uint32_t random_number(uint64_t *state);

#endif
