/*
 * A file is replaced whole or not at all. Its new bytes go to .NAME.d64-new in the same folder, which is flushed and then
 * renamed. That name is also the lock, for which it is open and locked from the start: whoever gets the lock looks whether
 * the name still leads to the file that it locked, since the holder before may have renamed or removed it.
 */
#define _GNU_SOURCE
#include "files.h"
#include "messages.h"
#include <errno.h>
#include <fcntl.h>
#include <signal.h>
#include <stdio.h>
#include <stdlib.h>
#include <string.h>
#include <sys/file.h>
#include <sys/stat.h>
#include <time.h>
#include <unistd.h>

enum { WAIT_SECONDS = 10, TRIES_A_SECOND = 50, MOST_LOCKS = 2 }; /* an image, and a file read from it */

static const int ending_signals[] = {SIGINT, SIGTERM, SIGHUP, SIGQUIT};
static const struct replacement *volatile held[MOST_LOCKS]; /* those whose temporary file is ours to remove */

/* Whether the name leads to the file that we locked: others may have removed it and made another. */
static bool names_our_lock(const struct replacement *file)
{
    struct stat locked, named;

    return fstat(file->lock, &locked) == 0 && lstat(file->temporary, &named) == 0 && locked.st_dev == named.st_dev &&
           locked.st_ino == named.st_ino;
}

static void remove_temporary(const struct replacement *file)
{
    if (names_our_lock(file))
        unlink(file->temporary);
}

static void remove_held(int signal_number)
{
    for (int i = 0; i < MOST_LOCKS; i++)
        if (held[i] != NULL)
            remove_temporary(held[i]);
    signal(signal_number, SIG_DFL);
    raise(signal_number);
}

static void set_of_signals(sigset_t *set)
{
    sigemptyset(set);
    for (size_t i = 0; i < sizeof ending_signals / sizeof ending_signals[0]; i++)
        sigaddset(set, ending_signals[i]);
}

void watch_signals(void)
{
    struct sigaction action = {.sa_handler = remove_held};
    struct sigaction before;

    set_of_signals(&action.sa_mask);
    for (size_t i = 0; i < sizeof ending_signals / sizeof ending_signals[0]; i++)
        if (sigaction(ending_signals[i], NULL, &before) == 0 && before.sa_handler != SIG_IGN)
            sigaction(ending_signals[i], &action, NULL);
    signal(SIGPIPE, SIG_IGN);
    signal(SIGXFSZ, SIG_IGN);
}

/* A signal must not come between a step and our note of it: another command may own the name by then. */
static void hold_signals(int how)
{
    sigset_t set;

    set_of_signals(&set);
    sigprocmask(how, &set, NULL);
}

static void note_held(const struct replacement *file)
{
    for (int i = 0; i < MOST_LOCKS; i++)
        if (held[i] == NULL) {
            held[i] = file;
            return;
        }
}

static void note_gone(const struct replacement *file)
{
    for (int i = 0; i < MOST_LOCKS; i++)
        if (held[i] == file)
            held[i] = NULL;
}

static void forget(struct replacement *file)
{
    if (file->lock >= 0)
        close(file->lock);
    free(file->target);
    free(file->folder);
    free(file->temporary);
}

void replacement_abandon(struct replacement *file)
{
    hold_signals(SIG_BLOCK);
    if (file->lock >= 0)
        remove_temporary(file);
    note_gone(file);
    hold_signals(SIG_UNBLOCK);
    forget(file);
}

static int abandon(struct replacement *file, int status)
{
    replacement_abandon(file);
    return status;
}

static bool name_parts(struct replacement *file, const char *path)
{
    char *name;

    errno = ENOENT; /* of an empty path */
    file->target = path[0] != '\0' ? resolved_path(path) : NULL;
    if (file->target == NULL)
        return false;
    name = strrchr(file->target, '/') + 1;
    if (*name == '\0') {
        errno = EISDIR;
        return false;
    }
    file->folder = strndup(file->target, (size_t)(name - file->target));
    return file->folder != NULL && asprintf(&file->temporary, "%s.%s" TEMPORARY_ENDING, file->folder, name) >= 0;
}

/* A file that another user made, or that has a second name, could be changed behind our back. */
static bool is_ours_alone(int lock)
{
    struct stat locked;

    return fstat(lock, &locked) == 0 && S_ISREG(locked.st_mode) && locked.st_nlink == 1 && locked.st_uid == geteuid();
}

enum lock { LOCKED, LOCKED_BY_ANOTHER, NO_LOCK };

/* What can be made of the open temporary file. One that is locked by nobody and not ours, left by another user, is removed. */
static enum lock lock_open_file(const struct replacement *file)
{
    if (flock(file->lock, LOCK_EX | LOCK_NB) != 0)
        return errno == EWOULDBLOCK || errno == EINTR ? LOCKED_BY_ANOTHER : NO_LOCK;
    if (!names_our_lock(file))
        return LOCKED_BY_ANOTHER;
    if (is_ours_alone(file->lock))
        return LOCKED;
    return unlink(file->temporary) == 0 ? LOCKED_BY_ANOTHER : NO_LOCK;
}

/* A file that is there and that we may not open is another user's lock. */
static enum lock without_opening(const struct replacement *file)
{
    int reason = errno;
    struct stat named;
    bool there = reason == EACCES && lstat(file->temporary, &named) == 0;

    errno = reason;
    return there ? LOCKED_BY_ANOTHER : NO_LOCK;
}

static enum lock try_lock(struct replacement *file)
{
    enum lock lock;
    int reason;

    file->lock = open(file->temporary, O_RDWR | O_CREAT | O_NOFOLLOW | O_NONBLOCK | O_CLOEXEC, S_IRUSR | S_IWUSR);
    if (file->lock < 0)
        return without_opening(file);
    lock = lock_open_file(file);
    if (lock == LOCKED) {
        note_held(file);
    } else {
        reason = errno;
        close(file->lock);
        file->lock = -1;
        errno = reason;
    }
    return lock;
}

static int take_lock(struct replacement *file, const char *path)
{
    const struct timespec pause = {.tv_nsec = 1000000000 / TRIES_A_SECOND};
    enum lock lock = LOCKED_BY_ANOTHER;

    for (int tries = 0; lock == LOCKED_BY_ANOTHER && tries < WAIT_SECONDS * TRIES_A_SECOND; tries++) {
        if (tries > 0)
            nanosleep(&pause, NULL);
        hold_signals(SIG_BLOCK);
        lock = try_lock(file);
        hold_signals(SIG_UNBLOCK);
    }
    if (lock == NO_LOCK)
        return fail(errno == ENOMEM ? STATUS_NO_MEMORY : STATUS_NO_OUTPUT, "cannot write %s: cannot make %s: %s", path, file->temporary, strerror(errno));
    if (lock == LOCKED_BY_ANOTHER)
        return fail(STATUS_IN_USE, "%s is in use by another command; nothing is changed (if no command runs, remove %s)", path, file->temporary);
    return 0;
}

/* What the file at the target is, and whether we may write it: renaming would not ask for that. */
static int look_at_target(struct replacement *file, const char *path)
{
    int target = open(file->target, O_WRONLY | O_NONBLOCK | O_CLOEXEC);
    mode_t mask = umask(0);
    struct stat found = {.st_mode = S_IFREG | (0666 & ~mask), .st_uid = geteuid(), .st_gid = getegid()};

    umask(mask);
    file->is_new = target < 0 && errno == ENOENT;
    if (target < 0 && !file->is_new)
        return fail_file(STATUS_NO_OUTPUT, "write", path);
    if (target >= 0 && fstat(target, &found) != 0)
        found.st_mode = 0;
    if (target >= 0)
        close(target);
    if (!S_ISREG(found.st_mode))
        return fail(STATUS_NO_OUTPUT, "cannot replace %s: it is not a regular file", path);
    file->mode = found.st_mode & 0777;
    file->owner = found.st_uid;
    file->group = found.st_gid;
    return 0;
}

int replacement_begin(struct replacement *file, const char *path)
{
    int status;

    *file = (struct replacement){.lock = -1};
    if (!name_parts(file, path))
        return abandon(file, fail_file(STATUS_NO_OUTPUT, "write", path));
    status = take_lock(file, path);
    if (status == 0)
        status = look_at_target(file, path);
    return status == 0 ? 0 : abandon(file, status);
}

static bool write_all(int file, const uint8_t *bytes, size_t length)
{
    while (length > 0) {
        ssize_t put = write(file, bytes, length);

        if (put < 0 && errno != EINTR)
            return false;
        if (put > 0) {
            bytes += put;
            length -= (size_t)put;
        }
    }
    return true;
}

/*
 * The group decides who may read: it is kept, or the file is not replaced. A new owner is whoever replaces it, where it cannot be
 * kept. What is right already is not asked for: a file system without owners and modes would say no.
 */
static bool keep_permissions(const struct replacement *file)
{
    struct stat now;

    if (fstat(file->lock, &now) != 0)
        return false;
    if (!file->is_new && (now.st_uid != file->owner || now.st_gid != file->group))
        if (fchown(file->lock, file->owner, file->group) != 0 && fchown(file->lock, (uid_t)-1, file->group) != 0)
            return false;
    if ((now.st_mode & 0777) == file->mode)
        return true;
    return fchmod(file->lock, file->mode) == 0 || (file->is_new && errno == EPERM);
}

static bool write_temporary(const struct replacement *file, const uint8_t *bytes, size_t length)
{
    return ftruncate(file->lock, 0) == 0 && write_all(file->lock, bytes, length) && keep_permissions(file) && fsync(file->lock) == 0;
}

static bool flush_folder(const char *path)
{
    int folder = open(path, O_RDONLY | O_DIRECTORY | O_CLOEXEC);
    bool flushed = folder >= 0 && (fsync(folder) == 0 || errno == EINVAL || errno == ENOTSUP); /* some file systems cannot */

    if (folder >= 0)
        close(folder);
    return flushed;
}

int replacement_commit(struct replacement *file, const uint8_t *bytes, size_t length)
{
    int status = 0;
    bool renamed, still_ours;

    if (!write_temporary(file, bytes, length))
        return abandon(file, fail_file(STATUS_NO_OUTPUT, "write", file->target));
    hold_signals(SIG_BLOCK);
    still_ours = names_our_lock(file);
    renamed = still_ours && rename(file->temporary, file->target) == 0;
    if (renamed)
        note_gone(file);
    hold_signals(SIG_UNBLOCK);
    if (!still_ours)
        return abandon(file, fail(STATUS_NO_OUTPUT, "cannot replace %s: somebody has removed %s", file->target, file->temporary));
    if (!renamed)
        return abandon(file, fail_file(STATUS_NO_OUTPUT, "replace", file->target));
    if (!flush_folder(file->folder))
        status = fail(STATUS_NO_FLUSH, "%s is replaced, but its folder cannot be flushed to the disk: %s", file->target, strerror(errno));
    forget(file);
    return status;
}
