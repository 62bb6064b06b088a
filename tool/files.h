/* Files read and replaced whole. Each function that returns a status has said why it is not 0. */
#ifndef FILES_H
#define FILES_H

#include <stdbool.h>
#include <stddef.h>
#include <stdint.h>
#include <sys/types.h>

/* "-": standard input, or standard output. */
bool is_stream(const char *path);

/* The path without symbolic links, also of a file that is not there yet, in memory that the caller frees. NULL, with errno, if there is none. */
char *resolved_path(const char *path);

/* Whether a path is that of a temporary file, which no image and no other file may have. */
#define TEMPORARY_ENDING ".d64-new"
bool is_temporary_name(const char *path);

/* Whether two paths lead, or would lead, to one file. */
bool same_file(const char *one, const char *other);

/* Reads a file from its start, at most `room` bytes of it. */
int read_file(const char *path, uint8_t *bytes, size_t room, size_t *length);

/* Reads a whole file as text with a NUL behind it, in memory that the caller frees. */
int read_text(const char *path, char **text, size_t *length);

/* Writes a whole file: in the place of a regular one or a new one, into anything else. */
int write_file(const char *path, const uint8_t *bytes, size_t length);

int write_stream(const uint8_t *bytes, size_t length);

/* A file about to be replaced: .NAME.d64-new beside it takes the new bytes, and is the lock on it from the start. */
struct replacement {
    char *target, *folder, *temporary;
    int lock;       /* the temporary file, open and locked */
    bool is_new;    /* there is no file to replace */
    mode_t mode;    /* of the file to replace, else as the system gives them */
    uid_t owner;
    gid_t group;
};

/*
 * Takes the places of closed standard streams, so that no file opened later gets what is printed: each becomes one that can
 * only be used the wrong way round, and so still fails.
 */
int open_standard_streams(void);

/* Cleans up at signals that end the process, and turns those about broken pipes and sizes into errors. */
void watch_signals(void);

/* Waits for the lock on a regular file, or on a new one of that name. */
int replacement_begin(struct replacement *file, const char *path);

/* Puts the new bytes in the file's place, and lets go of the lock. */
int replacement_commit(struct replacement *file, const uint8_t *bytes, size_t length);

/* Lets go of the lock, with the file as it was. */
void replacement_abandon(struct replacement *file);

#endif
