/*
 * Makes a tool wrong in one way, which WRONG names: a library to be loaded before the C library. The tool itself stays as it is, so that nothing but this way is
 * wrong (tests/tool/selftest).
 */
#define _GNU_SOURCE
#include <dlfcn.h>
#include <fcntl.h>
#include <signal.h>
#include <stdarg.h>
#include <stdio.h>
#include <stdlib.h>
#include <string.h>
#include <sys/file.h>
#include <sys/stat.h>
#include <sys/types.h>
#include <unistd.h>

#define REAL(name) ((__typeof__(&name))dlsym(RTLD_NEXT, #name))

static int wrong(const char *way)
{
    const char *asked = getenv("WRONG");
    return asked != NULL && strcmp(asked, way) == 0;
}

static int is_temporary(const char *path)
{
    return strstr(path, ".d64-new") != NULL;
}

static int open_wrongly(const char *path, int flags, mode_t mode)
{
    if (wrong("truncates") && !is_temporary(path) && (flags & O_ACCMODE) != O_RDONLY)
        flags |= O_TRUNC;
    if (wrong("open-to-all") && is_temporary(path))
        mode = 0666;
    return REAL(openat)(AT_FDCWD, path, flags, mode);
}

int open(const char *path, int flags, ...)
{
    va_list rest;
    va_start(rest, flags);
    mode_t mode = flags & O_CREAT ? va_arg(rest, mode_t) : 0;
    va_end(rest);
    return open_wrongly(path, flags, mode);
}

int open64(const char *path, int flags, ...)
{
    va_list rest;
    va_start(rest, flags);
    mode_t mode = flags & O_CREAT ? va_arg(rest, mode_t) : 0;
    va_end(rest);
    return open_wrongly(path, flags, mode);
}

/* Copies into the old file, byte for byte in place. */
static int copy_over(const char *from, const char *to)
{
    char part[4096];
    ssize_t got;
    int in = REAL(open)(from, O_RDONLY), out = REAL(open)(to, O_WRONLY | O_CREAT | O_TRUNC, 0644);
    while ((got = read(in, part, sizeof part)) > 0)
        if (REAL(write)(out, part, (size_t)got) != got)
            return -1;
    return close(in) == 0 && close(out) == 0 ? REAL(unlink)(from) : -1;
}

int rename(const char *from, const char *to)
{
    if (wrong("in-place"))
        return copy_over(from, to);
    int result = REAL(rename)(from, to);
    if (wrong("leaves-a-file"))
        close(REAL(open)(from, O_WRONLY | O_CREAT, 0600));
    return result;
}

int unlink(const char *path)
{
    return wrong("does-not-clean-up") ? 0 : REAL(unlink)(path);
}

int flock(int file, int operation)
{
    return wrong("ignores-the-lock") ? 0 : REAL(flock)(file, operation);
}

int fsync(int file)
{
    struct stat about;
    int folder = fstat(file, &about) == 0 && S_ISDIR(about.st_mode);
    return wrong(folder ? "does-not-flush-folders" : "does-not-flush") ? 0 : REAL(fsync)(file);
}

int fchmod(int file, mode_t mode)
{
    return wrong("loses-the-mode") ? 0 : REAL(fchmod)(file, mode);
}

int fchown(int file, uid_t owner, gid_t group)
{
    return wrong("loses-the-group") ? 0 : REAL(fchown)(file, owner, group);
}

ssize_t write(int file, const void *bytes, size_t length)
{
    ssize_t written = REAL(write)(file, bytes, length);
    return wrong("believes-writes") ? (ssize_t)length : written;
}

ssize_t read(int file, void *bytes, size_t length)
{
    ssize_t got = REAL(read)(file, bytes, length);
    return wrong("believes-reads") && got < 0 ? 0 : got;
}

int sigaction(int number, const struct sigaction *new, struct sigaction *old)
{
    return wrong("dies-of-signals") ? 0 : REAL(sigaction)(number, new, old);
}

int isatty(int file)
{
    return wrong("always-shows") ? 1 : wrong("never-shows") ? 0 : REAL(isatty)(file);
}
