/* The operations of a program that change the disk and are no calls. */
#ifndef DAMAGE_H
#define DAMAGE_H

#include "disk.h"
#include "input.h"
#include "program.h"

void damage(struct disk *disk, enum operation operation, struct input *input);

#endif
