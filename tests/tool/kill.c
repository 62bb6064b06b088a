/*
 * Ends commands at random moments, by SIGKILL, SIGTERM and SIGINT: kill TOOL FOLDER EXAMPLE_DISK [ROUNDS]. After each the files have their old bytes or their
 * new ones; after SIGTERM and SIGINT no temporary file is left; after SIGKILL the next command works and leaves none. Half the moments are drawn over the
 * whole command, half over what follows the making of the temporary file, so that many lie within the writing. Then several commands store on one image at
 * the same time, and half of them are ended: the files of the others are there. SEED draws all moments again.
 */
#define _GNU_SOURCE
#include "scenes.h"

#include <errno.h>
#include <fcntl.h>
#include <poll.h>
#include <signal.h>
#include <stdint.h>
#include <stdio.h>
#include <stdlib.h>
#include <string.h>
#include <sys/inotify.h>
#include <sys/prctl.h>
#include <sys/wait.h>
#include <time.h>
#include <unistd.h>

static const int signals[] = {SIGKILL, SIGTERM, SIGINT};
static uint64_t draws;
static int watcher;
static int early, within, late;

static double draw(void)
{
    draws = draws * 6364136223846793005u + 1442695040888963407u;
    return (double)(draws >> 11) / 9007199254740992.0;
}

/* Reads what happened in the folder; true if a temporary file was made. */
static int temporary_made(void)
{
    char events[8192] __attribute__((aligned(8)));
    int made = 0;
    ssize_t length;
    while ((length = read(watcher, events, sizeof events)) > 0)
        for (char *at = events; at < events + length;) {
            struct inotify_event *event = (struct inotify_event *)at;
            if ((event->mask & IN_CREATE) && event->len > 0 && strstr(event->name, ".d64-new") != NULL)
                made = 1;
            at += sizeof *event + event->len;
        }
    return made;
}

static void pause_for(double seconds)
{
    struct timespec rest = {(time_t)seconds, (long)((seconds - (double)(time_t)seconds) * 1e9)};
    while (nanosleep(&rest, &rest) != 0 && errno == EINTR)
        ;
}

/* Waits until the moment to end the command; tells whether the temporary file was seen on the way. */
static int wait_for_moment(const struct scene *scene)
{
    if (draw() < 0.5) {
        pause_for(draw() * scene->seconds * 1.2);
        return temporary_made();
    }
    struct pollfd watch = {watcher, POLLIN, 0};
    int made = 0;
    for (int tries = 0; tries < 20 && !made && poll(&watch, 1, 100) > 0; tries++)
        made = temporary_made();
    pause_for(draw() * scene->seconds * 0.6);
    return made;
}

static void round_of(const struct scene *scene, int sent)
{
    char when[100];
    int status;
    snprintf(when, sizeof when, "after %s", sent == SIGKILL ? "SIGKILL" : sent == SIGTERM ? "SIGTERM" : "SIGINT");
    scene_reset(scene);
    temporary_made();
    pid_t child = scene_start(scene, 0);
    int made = wait_for_moment(scene);
    kill(child, sent);
    if (waitpid(child, &status, 0) != child)
        fail("%s, %s: no end", scene_name(scene), when);
    made = temporary_made() || made;
    enum state state = scene_state(scene, when);
    if (WIFEXITED(status) && WEXITSTATUS(status) == 0 && state != NEW)
        fail("%s, %s: status 0, and %s is the old one", scene_name(scene), when, scene->target);
    if (WIFEXITED(status) && WEXITSTATUS(status) != 0 && WEXITSTATUS(status) < 64)
        fail("%s, %s: status %d", scene_name(scene), when, WEXITSTATUS(status));
    if (WIFSIGNALED(status) && WTERMSIG(status) != sent)
        fail("%s, %s: ended by signal %d", scene_name(scene), when, WTERMSIG(status));
    if (temporary_left() && sent != SIGKILL)
        fail("%s, %s: a temporary file is left", scene_name(scene), when);
    if (state == NEW)
        late++;
    else if (made)
        within++;
    else
        early++;
    if (sent == SIGKILL)
        scene_again(scene, state, when);
}

/* One of several commands at the same time: a store of the file out. */
static struct scene member(const char *verb, const char *name, const char *file)
{
    return (struct scene){.words = {verb, "disk", name, file}};
}

static void look_at_crowd(const int *statuses, const char *const *names, int members)
{
    const struct scene check = {.words = {"check", "disk"}};
    if (scene_run(&check) != 0)
        fail("several commands, some of them killed: the image is not accepted");
    for (int i = 0; i < members; i++) {
        struct scene reading = member("read", names[i], "fresh");
        int found = scene_run(&reading), done = WIFEXITED(statuses[i]) && WEXITSTATUS(statuses[i]) == 0;
        if (found != 0 && (found != 13 || done))
            fail("several commands, some of them killed: the file of a store with status 0 is not there (%d)", found);
        if (found == 0 && !same_bytes("fresh", "out"))
            fail("several commands, some of them killed: a file has other bytes");
    }
}

/* Several stores at the same time on one image, half of them ended at random moments. */
static int crowd(void)
{
    enum { MEMBERS = 6 };
    static const char *const names[MEMBERS] = {"A", "B", "C", "D", "E", "F"};
    pid_t children[MEMBERS];
    int statuses[MEMBERS], done = 0;
    scene_reset(NULL);
    for (int i = 0; i < MEMBERS; i++) {
        struct scene storing = member("store", names[i], "out");
        children[i] = scene_start(&storing, 0);
    }
    for (int i = 0; i < MEMBERS / 2; i++) {
        pause_for(draw() * 0.02); /* commands that wait for each other take longer than one alone */
        kill(children[i], draw() < 0.5 ? SIGKILL : SIGTERM);
    }
    for (int i = 0; i < MEMBERS; i++) {
        if (waitpid(children[i], &statuses[i], 0) != children[i])
            fail("several commands: one does not end");
        if (i >= MEMBERS / 2 && (!WIFEXITED(statuses[i]) || WEXITSTATUS(statuses[i]) != 0))
            fail("several commands, some of them killed: another one is not done");
        done += WIFEXITED(statuses[i]) && WEXITSTATUS(statuses[i]) == 0;
    }
    look_at_crowd(statuses, names, MEMBERS);
    return done;
}

int main(int count, char **values)
{
    int rounds = count > 4 ? atoi(values[4]) : 420;
    const char *seed = getenv("SEED");
    if (count < 4) {
        fprintf(stderr, "usage: kill TOOL FOLDER EXAMPLE_DISK [ROUNDS]\n");
        return 64;
    }
    draws = seed != NULL ? strtoull(seed, NULL, 10) : (uint64_t)time(NULL);
    printf("tool: kills drawn with SEED=%llu", (unsigned long long)draws);
    fflush(stdout);
    draws *= 2654435761u;
    prctl(PR_SET_TIMERSLACK, 1000ul, 0ul, 0ul, 0ul);
    scenes_begin(values[1], values[2], values[3]);
    watcher = inotify_init1(IN_NONBLOCK | IN_CLOEXEC);
    if (watcher < 0 || inotify_add_watch(watcher, ".", IN_CREATE) < 0)
        fail("the folder cannot be watched");
    for (int i = 0; i < rounds; i++)
        round_of(&scenes[(size_t)i % scene_count], signals[(size_t)(draw() * 3)]);
    printf(": %d, of them %d before the temporary file was made, %d while it was there, %d after\n", rounds, early, within, late);
    if (within * 10 < rounds)
        fail("too few of the kills came while a file was being written");
    int done = 0;
    for (int i = 0; i < rounds / 12; i++)
        done += crowd();
    printf("tool: %d times six commands at the same time, three of them killed: %d of %d done, every file there\n", rounds / 12, done, rounds / 12 * 6);
    return 0;
}
