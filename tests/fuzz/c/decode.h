/* The operations of a program that are calls. */
#ifndef DECODE_H
#define DECODE_H

#include "input.h"
#include "program.h"
#include "request.h"

/* The call that an operation's arguments ask for. It holds until the next is decoded. */
void decode_call(const struct disk *disk, enum operation operation, struct input *input, struct request *request);

/* A request with nothing but a call, and an answer block of nine bytes. */
struct request plain_request(enum call call);

/* The name in a slot, up to its padding; gives its length. */
size_t name_in_slot(const struct disk *disk, unsigned slot, uint8_t name[16]);

#endif
