/*
 * Ends commands, or has the system refuse them something, at every one of their system calls in turn: trace TOOL FOLDER EXAMPLE_DISK. The command is traced
 * from its first call on a file of the folder; before its n-th call it gets SIGKILL, SIGTERM or SIGINT, or that call gives an error, or writes or reads only a
 * part, for every n up to the end. Nothing is left to chance, and no way of calling the system is overlooked.
 */
#define _GNU_SOURCE
#include "scenes.h"

#include <errno.h>
#include <fcntl.h>
#include <signal.h>
#include <stdint.h>
#include <stdio.h>
#include <stdlib.h>
#include <string.h>
#include <sys/ptrace.h>
#include <sys/syscall.h>
#include <sys/uio.h>
#include <sys/user.h>
#include <sys/wait.h>
#include <unistd.h>

#ifndef __x86_64__
#error "the registers of a system call are those of x86-64"
#endif

enum { DESCRIPTORS = 64, PATH = 300 };
enum effect { NONE, SIGNAL, ERROR, PART, MEMORY };

/* What is done to the command before its n-th call. */
struct plan {
    enum effect effect;
    int n;
    int value; /* the signal, or the error */
};

/* What is known of the traced command. */
struct traced {
    pid_t child;
    int begun;                        /* it has named a file of the folder */
    int calls;                        /* since then */
    const char *target;               /* the file that it is to replace */
    int renamed;                      /* the new one has taken its place */
    int unflushed;                    /* bytes were written to a file since it was flushed */
    int renamed_unflushed;            /* a file took another's place like that */
    int flushed_after;                /* something, the folder, was flushed after the rename */
    long number;                      /* the call that the plan met, and what it was on */
    int on;                           /* its descriptor, or -1 */
    int met_after_rename;
    unsigned long flags;              /* of an open */
    char path[PATH];                  /* the file that it was on */
    char paths[DESCRIPTORS][PATH];    /* the file behind each descriptor */
};

static char folder_path[PATH];
static int kills, stops, errors, parts;

static void read_path(pid_t child, unsigned long at, char *path)
{
    struct iovec here = {path, PATH - 1}, there = {(void *)at, PATH - 1};
    ssize_t got = process_vm_readv(child, &here, 1, &there, 1, 0);
    if (got < 0) { /* the text ends near the end of a page */
        there.iov_len = 4096 - at % 4096;
        got = process_vm_readv(child, &here, 1, &there, 1, 0);
    }
    path[got < 0 ? 0 : got] = '\0';
}

/* The path that a call is given; an empty text if it has none. */
static void path_of(pid_t child, const struct user_regs_struct *regs, char *path)
{
    path[0] = '\0';
    switch (regs->orig_rax) {
    case SYS_openat: case SYS_newfstatat: case SYS_unlinkat: case SYS_readlinkat: case SYS_statx: case SYS_renameat: case SYS_renameat2:
    case SYS_faccessat: case SYS_faccessat2: case SYS_fchmodat: case SYS_fchownat: case SYS_linkat:
        read_path(child, regs->rsi, path);
        break;
    case SYS_open: case SYS_stat: case SYS_lstat: case SYS_unlink: case SYS_readlink: case SYS_rename: case SYS_access: case SYS_chmod: case SYS_chown:
    case SYS_link: case SYS_truncate: case SYS_creat:
        read_path(child, regs->rdi, path);
        break;
    }
}

static int takes_descriptor(long number)
{
    switch (number) {
    case SYS_read: case SYS_write: case SYS_pread64: case SYS_pwrite64: case SYS_readv: case SYS_writev: case SYS_close: case SYS_fsync: case SYS_fdatasync:
    case SYS_fchmod: case SYS_fchown: case SYS_ftruncate: case SYS_flock: case SYS_fstat: case SYS_lseek: case SYS_fallocate: case SYS_newfstatat:
    case SYS_fcntl: case SYS_copy_file_range: case SYS_sendfile:
        return 1;
    }
    return 0;
}

/* Notes the call that is about to be made; true if the plan says that something happens to it. */
static int note_call(struct traced *traced, const struct user_regs_struct *regs, const struct plan *plan)
{
    char path[PATH];
    path_of(traced->child, regs, path);
    int within = path[0] == '/' ? strncmp(path, folder_path, strlen(folder_path)) == 0 : path[0] != '\0' && strcmp(path, ".") != 0;
    if (within)
        traced->begun = 1;
    if (plan->effect == MEMORY)
        return traced->begun && (regs->orig_rax == SYS_brk || regs->orig_rax == SYS_mmap);
    if (!traced->begun || ++traced->calls != plan->n)
        return 0;
    traced->number = (long)regs->orig_rax;
    traced->on = path[0] == '\0' && takes_descriptor(traced->number) ? (int)regs->rdi : -1;
    traced->flags = traced->number == SYS_openat ? regs->rdx : 0;
    traced->met_after_rename = traced->renamed;
    snprintf(traced->path, PATH, "%s", traced->on >= 0 && traced->on < DESCRIPTORS ? traced->paths[traced->on] : path);
    return plan->effect != NONE;
}

/* Keeps what a done call changed: which file a descriptor is, and whether the new file has taken its place. */
static void note_result(struct traced *traced, const struct user_regs_struct *regs)
{
    long result = (long)regs->rax;
    if (regs->orig_rax == SYS_openat && result >= 0 && result < DESCRIPTORS)
        read_path(traced->child, regs->rsi, traced->paths[result]);
    if (result > 0 && (regs->orig_rax == SYS_write || regs->orig_rax == SYS_pwrite64) && regs->rdi > 2)
        traced->unflushed = 1;
    if (result == 0 && (regs->orig_rax == SYS_fsync || regs->orig_rax == SYS_fdatasync)) {
        traced->unflushed = 0;
        traced->flushed_after = traced->renamed;
    }
    if (result == 0 && (regs->orig_rax == SYS_rename || regs->orig_rax == SYS_renameat || regs->orig_rax == SYS_renameat2)) {
        char path[PATH];
        read_path(traced->child, regs->orig_rax == SYS_rename ? regs->rsi : regs->r10, path);
        traced->renamed |= strcmp(strrchr(path, '/') != NULL ? strrchr(path, '/') + 1 : path, traced->target) == 0;
        traced->renamed_unflushed |= traced->unflushed;
    }
}

/* Stands in for the plan's effect at the entry of its call. */
static void meet(struct traced *traced, struct user_regs_struct *regs, const struct plan *plan)
{
    if (plan->effect == SIGNAL)
        kill(traced->child, plan->value);
    else if (plan->effect == ERROR || plan->effect == MEMORY)
        regs->orig_rax = (unsigned long)-1;
    else if (regs->rdx > 1)
        regs->rdx = (regs->rdx + 1) / 3 + 1;
    if (plan->effect != SIGNAL)
        ptrace(PTRACE_SETREGS, traced->child, NULL, regs);
}

/* Runs a command to its end by the plan; gives its status as waitpid does. */
static int run_traced(const struct scene *scene, const struct plan *plan, struct traced *traced)
{
    int status, entering = 1, met = 0, deliver = 0;
    *traced = (struct traced){.target = scene->target};
    traced->child = scene_start(scene, 1);
    if (waitpid(traced->child, &status, 0) != traced->child || !WIFSTOPPED(status))
        fail("%s: cannot be traced", scene_name(scene));
    ptrace(PTRACE_SETOPTIONS, traced->child, NULL, PTRACE_O_TRACESYSGOOD | PTRACE_O_EXITKILL | PTRACE_O_TRACEEXEC);
    for (;;) {
        struct user_regs_struct regs;
        ptrace(PTRACE_SYSCALL, traced->child, NULL, deliver);
        if (waitpid(traced->child, &status, 0) != traced->child || !WIFSTOPPED(status))
            return status;
        deliver = 0;
        if (WSTOPSIG(status) != (SIGTRAP | 0x80)) {
            deliver = WSTOPSIG(status) == SIGTRAP ? 0 : WSTOPSIG(status);
            continue;
        }
        if (ptrace(PTRACE_GETREGS, traced->child, NULL, &regs) != 0)
            continue; /* it has been killed meanwhile */
        if (entering && note_call(traced, &regs, plan)) {
            meet(traced, &regs, plan);
            met = plan->effect == ERROR || plan->effect == MEMORY;
        } else if (!entering && met) {
            regs.rax = (unsigned long)-plan->value;
            ptrace(PTRACE_SETREGS, traced->child, NULL, &regs);
            met = 0;
        } else if (!entering) {
            note_result(traced, &regs);
        }
        entering = !entering;
    }
}

/* --- Signals -------------------------------------------------------------- */

static void signal_at(const struct scene *scene, int n, int sent)
{
    struct traced traced;
    char when[80];
    scene_reset(scene);
    int status = run_traced(scene, &(struct plan){SIGNAL, n, sent}, &traced);
    snprintf(when, sizeof when, "%s before call %d (%ld)", strsignal(sent), n, traced.number);
    enum state state = scene_state(scene, when);
    if (WIFEXITED(status) && WEXITSTATUS(status) == 0 && state != NEW)
        fail("%s, %s: status 0, and %s is the old one", scene_name(scene), when, scene->target);
    if (WIFEXITED(status) && WEXITSTATUS(status) != 0 && WEXITSTATUS(status) < 64)
        fail("%s, %s: status %d", scene_name(scene), when, WEXITSTATUS(status));
    if (WIFSIGNALED(status) && WTERMSIG(status) != sent)
        fail("%s, %s: ended by signal %d", scene_name(scene), when, WTERMSIG(status));
    if (temporary_left() && sent != SIGKILL)
        fail("%s, %s: a temporary file is left", scene_name(scene), when);
    if (sent == SIGKILL)
        scene_again(scene, state, when);
    *(sent == SIGKILL ? &kills : &stops) += 1;
}

/* --- Errors --------------------------------------------------------------- */

/* The errors that a call is made to give, ended by 0. EINTR may be tried again; the others cannot be overcome. */
static const int *errors_of(long number, unsigned long flags)
{
    static const int reading[] = {EIO, EINTR, 0}, writing[] = {ENOSPC, EIO, EINTR, EFBIG, 0}, changing[] = {EIO, EPERM, EINTR, 0};
    static const int opening[] = {EACCES, EMFILE, EIO, EINTR, 0}, making[] = {EACCES, ENOSPC, EROFS, EMFILE, EINTR, 0};
    static const int flushing[] = {ENOSPC, EIO, EINTR, EINVAL, 0};
    static const int moving[] = {EIO, ENOSPC, EACCES, EROFS, 0}, looking[] = {EIO, EACCES, 0}, locking[] = {EINTR, ENOLCK, 0}, none[] = {0};
    switch (number) {
    case SYS_openat: return flags & O_CREAT ? making : opening;
    case SYS_read: case SYS_pread64: return reading;
    case SYS_write: case SYS_pwrite64: case SYS_writev: case SYS_ftruncate: case SYS_fallocate: return writing;
    case SYS_fsync: case SYS_fdatasync: return flushing;
    case SYS_fchmod: case SYS_fchown: case SYS_close: return changing;
    case SYS_rename: case SYS_renameat: case SYS_renameat2: case SYS_unlink: case SYS_unlinkat: return moving;
    case SYS_newfstatat: case SYS_fstat: case SYS_readlink: case SYS_getcwd: return looking;
    case SYS_flock: return locking;
    }
    return none;
}

/* Whether a command cannot be done when this call gives this error: it needs the bytes read or written, the mode kept, the name taken. */
static int decisive(const struct traced *traced, int error)
{
    int cannot_flush = error == EINVAL && strstr(traced->path, ".d64-new") == NULL; /* a folder */
    if (error == EINTR || cannot_flush || traced->met_after_rename || (traced->on >= 0 && traced->on < 3))
        return 0;
    switch (traced->number) {
    case SYS_fchmod: /* a file that was not there has no mode to keep */
        return strstr(traced->path, "fresh") == NULL;
    case SYS_read: case SYS_write: case SYS_ftruncate: case SYS_fallocate: case SYS_fsync: case SYS_fdatasync: case SYS_rename: case SYS_renameat:
    case SYS_renameat2: case SYS_openat:
        return 1;
    }
    return 0;
}

/* What a clerk is told: the file's name and the system's reason. */
static void told(const struct scene *scene, const struct traced *traced, int error, const char *when)
{
    const char *slash = strrchr(traced->path, '/'), *said = scene_said();
    char name[PATH];
    snprintf(name, sizeof name, "%s", slash != NULL ? slash + 1 : traced->path);
    char *end = strstr(name, ".d64-new");
    if (end != NULL) { /* the temporary file of NAME: it is NAME that is told */
        *end = '\0';
        memmove(name, name + 1, strlen(name));
    }
    if (strstr(said, strerror(error)) == NULL)
        fail("%s, %s: no word of: %s", scene_name(scene), when, strerror(error));
    if (strstr(said, name) == NULL)
        fail("%s, %s: no word of the file %s", scene_name(scene), when, name);
}

static void outcome(const struct scene *scene, const struct traced *traced, const struct plan *plan, int status)
{
    char when[160];
    /* Without the lock the temporary file may be another command's, and has to be left. */
    int may_leave = traced->number == SYS_unlink || traced->number == SYS_unlinkat || traced->number == SYS_flock;
    snprintf(when, sizeof when, "%s at call %d (number %ld on %.60s)", plan->effect == PART ? "a part" : strerror(plan->value), plan->n, traced->number, traced->path);
    enum state state = scene_state(scene, when);
    if (!WIFEXITED(status))
        fail("%s, %s: ended by a signal", scene_name(scene), when);
    if (WEXITSTATUS(status) == 0 && state != NEW)
        fail("%s, %s: status 0, and %s is the old one", scene_name(scene), when, scene->target);
    if (WEXITSTATUS(status) != 0 && WEXITSTATUS(status) < 64)
        fail("%s, %s: status %d", scene_name(scene), when, WEXITSTATUS(status));
    if (WEXITSTATUS(status) != 0 && state == NEW && !traced->met_after_rename)
        fail("%s, %s: status %d, and %s is the new one", scene_name(scene), when, WEXITSTATUS(status), scene->target);
    if (WEXITSTATUS(status) != 0 && WEXITSTATUS(status) != 74 && state == NEW && traced->on > 2)
        fail("%s, %s: status %d, and not 74, though %s is the new one", scene_name(scene), when, WEXITSTATUS(status), scene->target);
    /* A folder that its file system cannot flush, EINVAL, is no failure. */
    if (traced->met_after_rename && traced->number == SYS_fsync && plan->value != EINTR && (WEXITSTATUS(status) == 0) != (plan->value == EINVAL))
        fail("%s, %s: status %d", scene_name(scene), when, WEXITSTATUS(status));
    if (plan->effect == PART && WEXITSTATUS(status) != 0)
        fail("%s, %s: status %d", scene_name(scene), when, WEXITSTATUS(status));
    if (plan->effect == ERROR && decisive(traced, plan->value)) {
        if (WEXITSTATUS(status) == 0)
            fail("%s, %s: status 0", scene_name(scene), when);
        told(scene, traced, plan->value, when);
    }
    if (!may_leave && temporary_left())
        fail("%s, %s: a temporary file is left", scene_name(scene), when);
    if (may_leave)
        scene_again(scene, state, when);
}

static void disturb(const struct scene *scene, struct plan plan)
{
    struct traced traced;
    scene_reset(scene);
    int status = run_traced(scene, &plan, &traced);
    outcome(scene, &traced, &plan, status);
    *(plan.effect == PART ? &parts : &errors) += 1;
}

static void errors_at(const struct scene *scene, int n)
{
    struct traced traced;
    scene_reset(scene);
    run_traced(scene, &(struct plan){NONE, n, 0}, &traced);
    for (const int *error = errors_of(traced.number, traced.flags); *error != 0; error++)
        disturb(scene, (struct plan){ERROR, n, *error});
    if (traced.number == SYS_read || traced.number == SYS_write)
        disturb(scene, (struct plan){PART, n, 0});
}

/* No memory from the first call on: 71, or done without. */
static void without_memory(const struct scene *scene)
{
    struct traced traced;
    scene_reset(scene);
    int status = run_traced(scene, &(struct plan){MEMORY, 0, ENOMEM}, &traced);
    enum state state = scene_state(scene, "no memory");
    if (!WIFEXITED(status) || (WEXITSTATUS(status) != 71 && WEXITSTATUS(status) != 0))
        fail("%s, no memory: status %d", scene_name(scene), WEXITSTATUS(status));
    if ((WEXITSTATUS(status) == 0) != (state == NEW) || (state == OLD && scene_said()[0] == '\0'))
        fail("%s, no memory: status %d does not fit %s, or nothing is said", scene_name(scene), WEXITSTATUS(status), scene->target);
    if (temporary_left())
        fail("%s, no memory: a temporary file is left", scene_name(scene));
}

/* Undisturbed: how many calls there are to disturb; the new bytes are flushed before they take the old file's place, and the folder after that. */
static int calls_of(const struct scene *scene)
{
    struct traced traced;
    scene_reset(scene);
    int status = run_traced(scene, &(struct plan){NONE, 0, 0}, &traced);
    if (!WIFEXITED(status) || WEXITSTATUS(status) != 0 || traced.calls < 5 || traced.renamed == 0)
        fail("%s: traced, it is not done as usual: %d calls, %s", scene_name(scene), traced.calls, traced.renamed ? "a rename" : "no rename");
    if (traced.renamed_unflushed)
        fail("%s: the new file takes the old one's place before its bytes are flushed to the disk", scene_name(scene));
    if (!traced.flushed_after)
        fail("%s: the folder is not flushed to the disk after the rename", scene_name(scene));
    return traced.calls;
}

int main(int count, char **values)
{
    int all = 0;
    if (count != 4) {
        fprintf(stderr, "usage: trace TOOL FOLDER EXAMPLE_DISK\n");
        return 64;
    }
    scenes_begin(values[1], values[2], values[3]);
    if (getcwd(folder_path, sizeof folder_path - 1) == NULL)
        fail("no folder");
    strcat(folder_path, "/");
    for (size_t i = 0; i < scene_count; i++) {
        int calls = calls_of(&scenes[i]);
        without_memory(&scenes[i]);
        for (int n = 1; n <= calls; n++) {
            signal_at(&scenes[i], n, SIGKILL);
            signal_at(&scenes[i], n, n % 2 ? SIGTERM : SIGINT);
            errors_at(&scenes[i], n);
        }
        all += calls;
    }
    printf("tool: at each of %d system calls of %zu commands: %d kills, %d other signals, %d errors, %d parts of a read or write\n",
           all, scene_count, kills, stops, errors, parts);
    return 0;
}
