/* One call with its arguments, and the comparison of what both sides make of it. */
#ifndef REQUEST_H
#define REQUEST_H

#include "disk.h"

/* In the order of the operations that make them (program.h). */
enum call { CHECK, FORMAT, READ, STORE, SCRATCH, TELL, LISTING, CALLS };

struct request {
    enum call call;
    const uint8_t *name, *data;
    size_t name_len, data_len;
    size_t room;        /* bytes of the output lent to read, tell or listing */
    size_t position;    /* of a tell */
    size_t track18_len; /* lent to a listing, where the disk is an image */
    size_t block;       /* bytes of the answer block */
    uint32_t kind;
    uint8_t ids[2];
    unsigned place; /* where the memory lent lies (memory.h) */
};

/* Any bytes, always the same; every buffer holds some of them before a call. */
extern uint8_t filling[2 * MOST_LENT];

/* Reserves the memory to lend and fills 'filling'; once, before all else. */
void requests_prepare(struct disk *disk);

/* What the input before this one was asked is forgotten. */
void requests_begin(void);

/* Runs the request on both sides and compares. On a difference it says what differs and aborts. */
void request_compare(struct disk *disk, const struct request *request);

#endif
