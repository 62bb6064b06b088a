/* Names as text and as the PETSCII bytes of a disk; the table is in d64(1), NAMES. */
#ifndef NAMES_H
#define NAMES_H

#include <stdbool.h>
#include <stddef.h>
#include <stdint.h>

struct name {
    const uint8_t *bytes;
    size_t length;
};

#define NAME_TEXT_BYTES(length) (4 * (length) + 1) /* each byte as \xNN, and a NUL */

/* Translates a text in its own memory, where its bytes fit. False, and nothing changed, if it holds something that names do not have. */
bool name_of_text(char *text, struct name *name);

/* Whether a name holds letters that were typed as small ones. */
bool has_shifted_letters(const struct name *name);

/* Writes a name as text; one that is too long for the room is cut. */
void text_of_name(const uint8_t *bytes, size_t length, char *text, size_t room);

#endif
