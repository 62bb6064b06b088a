/*
 * How often each call was answered by each number, and 8 with a sector and with 255, over all inputs of a run; in which
 * layouts each was done; and which shapes of disks the checks have met.
 */
#ifndef TALLY_H
#define TALLY_H

#include <stdbool.h>
#include <stdint.h>

#include "disk.h"
#include "request.h"

/* Counts an answer and the block that it fills; gives whether d64.h names the number for the call. */
bool tally(enum call call, uint32_t layout, uint32_t number, const uint8_t *answer);

/* Looks at the disk of a check that was answered by this number and block. */
void tally_disk(const struct disk *disk, uint32_t number, const uint8_t *answer);

/* The tally is printed when the program ends by itself. */
void tally_at_exit(void);

extern const char *const call_names[CALLS];

#endif
