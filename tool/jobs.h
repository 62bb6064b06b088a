/* Commands, and jobs: a command with its operands, from the command line or a line of a job list. */
#ifndef JOBS_H
#define JOBS_H

#include "names.h"

enum verb { FORMAT, CHECK, DIR, READ, STORE, SCRATCH, LISTING, RUN };

struct command {
    const char *word;
    enum verb verb;
    const char *operands;         /* behind IMAGE on a command line, behind the word in a job list */
    size_t fewest, most;          /* of those operands */
    bool in_job_lists, changes_image;
    const char *help;
};

/* The command of that name, or NULL. */
const struct command *find_command(const char *word);

/* The commands one after the other; NULL behind the last. */
const struct command *command_at(size_t place);

struct job {
    const struct command *command;
    unsigned line;                /* of the job list; 0 on the command line */
    struct name name, id;
    const char *file;
    uint32_t kind;
};

struct job_list {
    struct job *jobs;
    size_t count;
    bool from_stream;             /* the list came from standard input */
    char *text;                   /* what the jobs' words point into */
};

/* Makes a job of words, which it changes. */
int job_of_words(struct job *job, const struct command *command, char **words, size_t count);

/* Reads a whole job list. */
int read_job_list(struct job_list *list, const char *path);
void free_job_list(struct job_list *list);

#endif
