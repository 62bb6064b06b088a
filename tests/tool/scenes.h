/*
 * Commands that write, in a folder whose files are known before and after each of them. The tests that disturb a command (kill.c, trace.c) share this:
 * whatever happens to it, each file has its old bytes or its new ones.
 */
#ifndef SCENES_H
#define SCENES_H

#include <stddef.h>
#include <sys/types.h>

enum { FILES = 5, WORDS = 7 };

/* A file's bytes; not there: at is NULL. */
struct bytes {
    unsigned char *at;
    size_t length;
};

struct scene {
    const char *words[WORDS];  /* the command, without the tool */
    const char *target;        /* the file that it replaces, or makes */
    int again;                 /* the status of the same command once it is done */
    struct bytes after[FILES]; /* the files after it, undisturbed */
    double seconds;            /* how long it takes, undisturbed */
};

extern struct scene scenes[];
extern size_t scene_count; /* all, or the first so many that SCENES says */
extern const char *const file_names[FILES];

enum state { OLD, NEW };

/* Moves to an empty folder, makes the files there, and runs every scene once. */
void scenes_begin(const char *tool, const char *folder, const char *example_disk);
/* The folder as it is before a command. */
void scene_reset(const struct scene *scene);
/* Starts the tool, its standard error into a file beside the folder; traced: it stops as soon as it runs. */
pid_t scene_start(const struct scene *scene, int traced);
/* Runs the tool to its end; its status. */
int scene_run(const struct scene *scene);
/* Whether two files of the folder are there and alike. */
int same_bytes(const char *path, const char *other);
/* Fails unless each file has its bytes from before or after the command and its mode; tells which of the two the target has. */
enum state scene_state(const struct scene *scene, const char *when);
/* Whether a temporary file is there; fails if it may be read by more people than the file itself, or if there is any other file. */
int temporary_left(void);
/* Runs the same command again: it works, has the status that it should have, and leaves no temporary file. */
void scene_again(const struct scene *scene, enum state state, const char *when);
/* What the tool printed on standard error. */
const char *scene_said(void);
/* The scene's words, for messages. */
const char *scene_name(const struct scene *scene);

void fail(const char *format, ...) __attribute__((noreturn, format(printf, 1, 2)));

#endif
