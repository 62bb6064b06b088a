#define _GNU_SOURCE
#include "files.h"
#include "messages.h"
#include <errno.h>
#include <fcntl.h>
#include <stdio.h>
#include <stdlib.h>
#include <string.h>
#include <sys/stat.h>
#include <unistd.h>

enum { MOST_TEXT_BYTES = 1 << 26 };

bool is_stream(const char *path)
{
    return strcmp(path, "-") == 0;
}

int open_standard_streams(void)
{
    for (int stream = STDIN_FILENO; stream <= STDERR_FILENO; stream++)
        if (fcntl(stream, F_GETFD) < 0 && open("/dev/null", stream == STDIN_FILENO ? O_WRONLY : O_RDONLY) != stream)
            return STATUS_NO_OUTPUT; /* and nowhere to say it */
    return 0;
}

char *resolved_path(const char *path)
{
    char *target = realpath(path, NULL), *given, *folder, *joined = NULL;
    const char *slash = strrchr(path, '/'), *name = slash != NULL ? slash + 1 : path;
    struct stat link;

    if (target != NULL || errno != ENOENT || lstat(path, &link) == 0)
        return target;
    given = name == path ? strdup(".") : strndup(path, (size_t)(name - path));
    folder = given != NULL ? realpath(given, NULL) : NULL;
    free(given);
    if (folder != NULL && asprintf(&joined, "%s/%s", folder, name) < 0)
        joined = NULL;
    free(folder);
    return joined;
}

bool same_file(const char *one, const char *other)
{
    char *first = resolved_path(one), *second = resolved_path(other);
    struct stat one_found, other_found;
    bool same = first != NULL && second != NULL && strcmp(first, second) == 0;

    if (stat(one, &one_found) == 0 && stat(other, &other_found) == 0)
        same = one_found.st_dev == other_found.st_dev && one_found.st_ino == other_found.st_ino;
    free(first);
    free(second);
    return same && !is_stream(one) && !is_stream(other);
}

static bool ends_as_temporary(const char *path)
{
    const char *slash = strrchr(path, '/'), *name = slash != NULL ? slash + 1 : path;
    size_t length = strlen(name), ending = strlen(TEMPORARY_ENDING);

    return name[0] == '.' && length > ending && strcmp(name + length - ending, TEMPORARY_ENDING) == 0;
}

bool is_temporary_name(const char *path)
{
    char *resolved = realpath(path, NULL);
    bool is_one = ends_as_temporary(path) || (resolved != NULL && ends_as_temporary(resolved));

    free(resolved);
    return is_one;
}

/* Reads until `room` bytes are there or the file ends. */
static bool read_all(int file, uint8_t *bytes, size_t room, size_t *length)
{
    ssize_t got = 1;

    *length = 0;
    while (*length < room && got != 0) {
        got = read(file, bytes + *length, room - *length);
        if (got < 0 && errno != EINTR)
            return false;
        if (got > 0)
            *length += (size_t)got;
    }
    return true;
}

static int open_input(const char *path)
{
    return is_stream(path) ? dup(STDIN_FILENO) : open(path, O_RDONLY | O_CLOEXEC);
}

static const char *input_name(const char *path)
{
    return is_stream(path) ? "standard input" : path;
}

int read_file(const char *path, uint8_t *bytes, size_t room, size_t *length)
{
    int file = open_input(path), status = 0;

    *length = 0;
    if (file < 0 || !read_all(file, bytes, room, length))
        status = fail_file(STATUS_NO_INPUT, "read", input_name(path));
    if (file >= 0)
        close(file);
    return status;
}

/* Reads a file of any length, doubling the memory as it goes. */
static int read_growing(int file, const char *path, char **text, size_t *length)
{
    size_t room = 0, got = 0;
    char *larger;

    *length = 0;
    while (*length == room) {
        if (room >= MOST_TEXT_BYTES)
            return fail(STATUS_USAGE, "%s is too long; a job list has less than %d MiB", input_name(path), MOST_TEXT_BYTES >> 20);
        room = room == 0 ? 65536 : 2 * room;
        larger = realloc(*text, room + 1);
        if (larger == NULL)
            return fail(STATUS_NO_MEMORY, "no memory left for %s", input_name(path));
        *text = larger;
        if (!read_all(file, (uint8_t *)*text + *length, room - *length, &got))
            return fail_file(STATUS_NO_INPUT, "read", input_name(path));
        *length += got;
    }
    (*text)[*length] = '\0';
    return 0;
}

int read_text(const char *path, char **text, size_t *length)
{
    int file = open_input(path), status;

    *text = NULL;
    if (file < 0)
        return fail_file(STATUS_NO_INPUT, "read", input_name(path));
    status = read_growing(file, path, text, length);
    close(file);
    return status;
}

int write_stream(const uint8_t *bytes, size_t length)
{
    if (fwrite(bytes, 1, length, stdout) != length || fflush(stdout) != 0)
        return fail_file(STATUS_NO_OUTPUT, "write", "standard output");
    return 0;
}

/* Writes to a device, a pipe or the like, which cannot be replaced. */
static int write_into(const char *path, const uint8_t *bytes, size_t length)
{
    FILE *file = fopen(path, "wbe");
    bool written;

    if (file == NULL)
        return fail_file(STATUS_NO_OUTPUT, "write", path);
    written = fwrite(bytes, 1, length, file) == length;
    if (fclose(file) != 0 || !written)
        return fail_file(STATUS_NO_OUTPUT, "write", path);
    return 0;
}

int write_file(const char *path, const uint8_t *bytes, size_t length)
{
    struct replacement file;
    struct stat found;
    int status;

    if (is_stream(path))
        return write_stream(bytes, length);
    if (stat(path, &found) == 0 && !S_ISREG(found.st_mode))
        return write_into(path, bytes, length);
    status = replacement_begin(&file, path);
    return status != 0 ? status : replacement_commit(&file, bytes, length);
}
