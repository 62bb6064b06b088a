/* What the tool says: one line for a refusal, an error or what is done, on standard error. */
#ifndef MESSAGES_H
#define MESSAGES_H

#include "layouts.h"
#include <stdbool.h>

/* Exit statuses of the tool itself; those below 64 are the library's answers. */
enum status {
    STATUS_USAGE = 64,     /* the command line or the job list is not as expected */
    STATUS_NO_INPUT = 66,  /* a file cannot be read */
    STATUS_NO_MEMORY = 71, /* the system has no memory left */
    STATUS_NO_OUTPUT = 73, /* a file cannot be written, and is as it was */
    STATUS_NO_FLUSH = 74,  /* a file is replaced, but the system cannot say that a power failure would not undo it */
    STATUS_IN_USE = 75     /* another command has the image */
};

/* What a call returns, and its answer block. */
struct answer {
    uint32_t number;
    uint8_t track, sector, slot;
    uint32_t length, sectors;
};

struct answer answer_of(uint32_t number, const uint8_t block[D64_BLOCK_BYTES]);

/*
 * Keeps each line of standard error whole beside those of other programs, and standard output in one piece: what is printed fits
 * its buffer, so that an error shows where it is flushed.
 */
void print_whole_lines(void);

/* No lines for what is done. */
void keep_quiet(void);
bool is_quiet(void);

/* The line of the job list that later messages are about; 0 for none. */
void set_line(unsigned line);

/* Says why the tool fails, and returns the status. */
int fail(enum status status, const char *format, ...) __attribute__((format(printf, 2, 3)));

/* The same for a file, with the system's reason in errno. */
int fail_file(enum status status, const char *what, const char *path);

/* Says why the library refuses the image in this layout, with a hint behind it, and returns its number. */
int refuse(const struct answer *answer, const struct layout *layout, const uint8_t *image, size_t image_length, const char *hint);

/* Says what is done. */
void say(const char *format, ...) __attribute__((format(printf, 1, 2)));

/* Shows on a terminal which of how many jobs runs now; the next message takes its place. */
void show_progress(size_t job, size_t jobs, const char *what, const char *name);
void end_progress(void);

#endif
