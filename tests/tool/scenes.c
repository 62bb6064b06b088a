#define _GNU_SOURCE
#include "scenes.h"

#include <dirent.h>
#include <fcntl.h>
#include <stdarg.h>
#include <stdio.h>
#include <stdlib.h>
#include <string.h>
#include <sys/ptrace.h>
#include <sys/stat.h>
#include <sys/wait.h>
#include <time.h>
#include <unistd.h>

/* fresh is not there before; the others are, with this mode. */
enum { MODE = 0640 };
const char *const file_names[FILES] = {"disk", "data", "jobs", "out", "fresh"};

struct scene scenes[] = {
    {.words = {"store", "disk", "NEW", "data"}, .target = "disk", .again = 12},
    {.words = {"scratch", "disk", "CODE"}, .target = "disk", .again = 13},
    {.words = {"format", "disk", "OTHER", "02"}, .target = "disk", .again = 0},
    {.words = {"format", "fresh", "OTHER", "02"}, .target = "fresh", .again = 0},
    {.words = {"run", "jobs", "disk"}, .target = "disk", .again = 13},
    {.words = {"read", "disk", "CODE", "out"}, .target = "out", .again = 0},
    {.words = {"read", "disk", "CODE", "fresh"}, .target = "fresh", .again = 0},
};
size_t scene_count = sizeof scenes / sizeof scenes[0];

static struct bytes before[FILES];
static const char *tool_path;
static char said_path[4096];

void fail(const char *format, ...)
{
    va_list values;
    va_start(values, format);
    printf("tool: ");
    vprintf(format, values);
    printf("\nthe tool said: %s\n", scene_said());
    va_end(values);
    exit(1);
}

static struct bytes read_bytes(const char *path)
{
    struct bytes bytes = {NULL, 0};
    struct stat about;
    int file = open(path, O_RDONLY | O_CLOEXEC);
    if (file < 0)
        return bytes;
    if (fstat(file, &about) != 0 || (bytes.at = malloc((size_t)about.st_size + 1)) == NULL)
        fail("%s: cannot be looked at", path);
    ssize_t got;
    while ((got = read(file, bytes.at + bytes.length, (size_t)about.st_size + 1 - bytes.length)) > 0)
        bytes.length += (size_t)got;
    close(file);
    return bytes;
}

static void write_bytes(const char *path, struct bytes bytes)
{
    int file = open(path, O_WRONLY | O_CREAT | O_TRUNC | O_CLOEXEC, MODE);
    if (file < 0 || write(file, bytes.at, bytes.length) != (ssize_t)bytes.length || fchmod(file, MODE) != 0 || close(file) != 0)
        fail("%s: the test cannot write it", path);
}

static int equal(struct bytes a, struct bytes b)
{
    if (a.at == NULL || b.at == NULL)
        return a.at == b.at;
    return a.length == b.length && memcmp(a.at, b.at, a.length) == 0;
}

static int holds(const char *path, struct bytes bytes)
{
    struct bytes now = read_bytes(path);
    int same = equal(now, bytes);
    free(now.at);
    return same;
}

int same_bytes(const char *path, const char *other)
{
    struct bytes bytes = read_bytes(other);
    int same = bytes.at != NULL && holds(path, bytes);
    free(bytes.at);
    return same;
}

static int known(const char *name)
{
    for (int i = 0; i < FILES; i++)
        if (strcmp(name, file_names[i]) == 0)
            return 1;
    return 0;
}

/* Calls a function for each name in the folder that is none of the known files. */
static int for_others(int (*visit)(const char *name))
{
    int sum = 0;
    DIR *folder = opendir(".");
    struct dirent *entry;
    while (folder != NULL && (entry = readdir(folder)) != NULL)
        if (strcmp(entry->d_name, ".") != 0 && strcmp(entry->d_name, "..") != 0 && !known(entry->d_name))
            sum += visit(entry->d_name);
    if (folder == NULL || closedir(folder) != 0)
        fail("the folder cannot be read");
    return sum;
}

static int one(const char *name)
{
    size_t length = strlen(name);
    struct stat about;
    if (name[0] != '.' || length < 9 || strcmp(name + length - 8, ".d64-new") != 0)
        fail("a file %s that nobody asked for", name);
    if (strstr(name, "fresh") == NULL && lstat(name, &about) == 0 && (about.st_mode & 07777 & ~MODE) != 0)
        fail("the temporary file %s has mode %o, and the file itself has %o", name, about.st_mode & 07777, MODE);
    return 1;
}

int temporary_left(void)
{
    return for_others(one);
}

void scene_reset(const struct scene *scene)
{
    (void)scene;
    for_others(unlink);
    for (int i = 0; i < FILES; i++) {
        struct stat about;
        if (before[i].at == NULL)
            unlink(file_names[i]);
        else if (stat(file_names[i], &about) != 0 || (about.st_mode & 07777) != MODE || !holds(file_names[i], before[i]))
            write_bytes(file_names[i], before[i]);
    }
}

pid_t scene_start(const struct scene *scene, int traced)
{
    pid_t child = fork();
    if (child != 0)
        return child;
    const char *words[WORDS + 2] = {tool_path};
    memcpy(words + 1, scene->words, sizeof scene->words);
    int said = open(said_path, O_WRONLY | O_CREAT | O_TRUNC, 0600);
    int nothing = open("/dev/null", O_RDWR);
    dup2(nothing, 0);
    dup2(nothing, 1);
    dup2(said, 2);
    closefrom(3);
    if (traced)
        ptrace(PTRACE_TRACEME, 0, NULL, NULL);
    execv(tool_path, (char *const *)words);
    _exit(127);
}

int scene_run(const struct scene *scene)
{
    int status;
    pid_t child = scene_start(scene, 0);
    if (child < 0 || waitpid(child, &status, 0) != child || !WIFEXITED(status))
        fail("%s: no exit", scene_name(scene));
    return WEXITSTATUS(status);
}

enum state scene_state(const struct scene *scene, const char *when)
{
    enum state state = OLD;
    for (int i = 0; i < FILES; i++) {
        struct bytes now = read_bytes(file_names[i]);
        struct stat about;
        int old = equal(now, before[i]), new = equal(now, scene->after[i]);
        if (!old && !new)
            fail("%s, %s: %s has neither its old bytes nor its new ones (%zu bytes now)", scene_name(scene), when, file_names[i], now.length);
        if (before[i].at != NULL && stat(file_names[i], &about) == 0 && (about.st_mode & 07777) != MODE)
            fail("%s, %s: %s has mode %o, not %o", scene_name(scene), when, file_names[i], about.st_mode & 07777, MODE);
        if (strcmp(file_names[i], scene->target) == 0 && !old)
            state = NEW;
        free(now.at);
    }
    return state;
}

void scene_again(const struct scene *scene, enum state state, const char *when)
{
    int status = scene_run(scene), expected = state == OLD ? 0 : scene->again;
    if (status != expected)
        fail("%s, %s: the next command has status %d, not %d", scene_name(scene), when, status, expected);
    if (scene_state(scene, when) != NEW)
        fail("%s, %s: the next command did not do its work", scene_name(scene), when);
    if (temporary_left())
        fail("%s, %s: the next command leaves a temporary file", scene_name(scene), when);
}

const char *scene_said(void)
{
    static char text[600];
    struct bytes said = said_path[0] != '\0' ? read_bytes(said_path) : (struct bytes){NULL, 0};
    size_t length = said.length < sizeof text - 1 ? said.length : sizeof text - 1;
    if (length > 0)
        memcpy(text, said.at, length);
    text[length] = '\0';
    free(said.at);
    return text;
}

const char *scene_name(const struct scene *scene)
{
    static char name[200];
    name[0] = '\0';
    for (int i = 0; scene->words[i] != NULL; i++)
        snprintf(name + strlen(name), sizeof name - strlen(name), i == 0 ? "%s" : " %s", scene->words[i]);
    return name;
}

static double now(void)
{
    struct timespec time;
    clock_gettime(CLOCK_MONOTONIC, &time);
    return (double)time.tv_sec + (double)time.tv_nsec / 1e9;
}

/* The bytes after a scene, and how long it takes: the shortest of three runs. */
static void scene_learn(struct scene *scene)
{
    scene->seconds = 1e9;
    for (int run = 0; run < 3; run++) {
        scene_reset(scene);
        double start = now();
        if (scene_run(scene) != 0)
            fail("%s: not done", scene_name(scene));
        if (now() - start < scene->seconds)
            scene->seconds = now() - start;
        if (temporary_left())
            fail("%s: a temporary file is left", scene_name(scene));
    }
    for (int i = 0; i < FILES; i++) {
        scene->after[i] = read_bytes(file_names[i]);
        if (strcmp(file_names[i], scene->target) == 0 && equal(scene->after[i], before[i]))
            fail("%s: %s is as before", scene_name(scene), file_names[i]);
    }
}

void scenes_begin(const char *tool, const char *folder, const char *example_disk)
{
    static unsigned char data[30000];
    static unsigned char jobs[] = "read CODE fresh\nstore A data\nscratch CODE\nstore B data seq\n";
    const char *asked = getenv("SCENES");
    if (asked != NULL && strtoul(asked, NULL, 10) > 0 && strtoul(asked, NULL, 10) < scene_count)
        scene_count = strtoul(asked, NULL, 10);
    tool_path = tool;
    snprintf(said_path, sizeof said_path, "%s.said", folder);
    for (size_t i = 0; i < sizeof data; i++)
        data[i] = (unsigned char)(i * 7 + i / 256);
    before[0] = read_bytes(example_disk);
    before[1] = (struct bytes){data, sizeof data};
    before[2] = (struct bytes){jobs, sizeof jobs - 1};
    before[3] = (struct bytes){data, 1000};
    if (before[0].at == NULL || mkdir(folder, 0700) != 0 || chdir(folder) != 0)
        fail("%s: no new folder", folder);
    for (size_t i = 0; i < scene_count; i++)
        scene_learn(&scenes[i]);
}
