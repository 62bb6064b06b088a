/* The directory as a drive lists it, and the sleeve listing, on standard output. */
#ifndef DIRECTORY_H
#define DIRECTORY_H

#include "layouts.h"
#include "messages.h"

/* Each returns 0, with the library's answer; nothing is printed if that is a refusal. */
int print_directory(const struct layout *layout, const uint8_t *image, size_t image_length, struct answer *answer);
int print_listing(const struct layout *layout, const uint8_t *image, size_t image_length, struct answer *answer);

#endif
