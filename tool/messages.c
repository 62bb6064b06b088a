#include "messages.h"
#include "map.h"
#include <errno.h>
#include <stdarg.h>
#include <stdio.h>
#include <string.h>
#include <unistd.h>

static bool quiet, progress_shown;
static unsigned current_line;

/* What the place of an answer names. */
enum place { NO_PLACE, SIZE, LINK, ENTRY, MAP };

static const struct {
    const char *meaning;
    enum place place;
} answers[] = {
    [D64_WRONG_SIZE] = {"wrong size", SIZE},
    [D64_BAD_LINK] = {"bad link", LINK},
    [D64_OWNED] = {"sector already owned", LINK},
    [D64_WRONG_KIND] = {"kind or flags not carried", ENTRY},
    [D64_WRONG_NAME] = {"name on disk breaks the rule", ENTRY},
    [D64_SAME_NAME] = {"name already on disk in an earlier slot", ENTRY},
    [D64_WRONG_COUNT] = {"sector count wrong", ENTRY},
    [D64_WRONG_MAP] = {"map entry wrong", MAP},
    [D64_BAD_NAME] = {"name asked for is empty, has over 16 bytes, or holds \\xA0", NO_PLACE},
    [D64_BAD_KIND] = {"kind asked for is not 1 (SEQ) or 2 (PRG)", NO_PLACE},
    [D64_READ_ONLY] = {"DOS version forbids writing", NO_PLACE},
    [D64_NAME_TAKEN] = {"name is there already", NO_PLACE},
    [D64_NOT_FOUND] = {"name is not there", NO_PLACE},
    [D64_DIRECTORY_FULL] = {"directory full: no empty slot and no free sector on track 18", NO_PLACE},
    [D64_DISK_FULL] = {"disk full: more sectors needed than are free off track 18", NO_PLACE},
    [D64_SHORT] = {"output buffer too short", NO_PLACE},
    [D64_UNKNOWN_LAYOUT] = {"unknown layout", NO_PLACE},
};

struct answer answer_of(uint32_t number, const uint8_t block[D64_BLOCK_BYTES])
{
    struct answer answer = {
        .number = number,
        .track = block[0],
        .sector = block[1],
        .slot = block[2],
        .length = block[3] | (uint32_t)block[4] << 8 | (uint32_t)block[5] << 16 | (uint32_t)block[6] << 24,
        .sectors = block[7] | (uint32_t)block[8] << 8,
    };

    return answer;
}

void print_whole_lines(void)
{
    static char error_buffer[16384], output_buffer[65536];

    setvbuf(stderr, error_buffer, _IOLBF, sizeof error_buffer);
    setvbuf(stdout, output_buffer, _IOFBF, sizeof output_buffer);
}

void keep_quiet(void)
{
    quiet = true;
}

bool is_quiet(void)
{
    return quiet;
}

void set_line(unsigned line)
{
    current_line = line;
}

void end_progress(void)
{
    if (progress_shown)
        fputs("\r\033[K", stderr);
    progress_shown = false;
}

static void begin_line(const char *otherwise)
{
    end_progress();
    if (current_line != 0)
        fprintf(stderr, "line %u: ", current_line);
    else
        fputs(otherwise, stderr);
}

/* One line, whatever is in the names and paths: control characters could be orders to a terminal. */
static void print_line(const char *format, va_list arguments)
{
    char text[8192];
    int length = vsnprintf(text, sizeof text, format, arguments);

    for (char *c = text; length >= 0 && *c != '\0'; c++)
        if ((unsigned char)*c < ' ' || *c == 0x7F)
            *c = '?';
    fprintf(stderr, "%s\n", length >= 0 ? text : format);
}

int fail(enum status status, const char *format, ...)
{
    va_list arguments;

    begin_line("d64: ");
    va_start(arguments, format);
    print_line(format, arguments);
    va_end(arguments);
    return status;
}

int fail_file(enum status status, const char *what, const char *path)
{
    return fail(errno == ENOMEM ? STATUS_NO_MEMORY : status, "cannot %s %s: %s", what, path[0] != '\0' ? path : "''", strerror(errno));
}

static void print_number(size_t number)
{
    if (number < 1000)
        fprintf(stderr, "%zu", number);
    else
        fprintf(stderr, "%zu,%03zu", number / 1000, number % 1000);
}

/* Which layouts have the size; where none has, which sizes there are. Of an image that is too long for any of them no more was read. */
static void print_size(const struct layout *layout, size_t length)
{
    const char *those = layouts_of_size(length);

    fprintf(stderr, "; this image has %s", length > LARGEST_IMAGE_BYTES ? "more than " : "");
    print_number(length > LARGEST_IMAGE_BYTES ? LARGEST_IMAGE_BYTES : length);
    if (those != NULL) {
        fprintf(stderr, " bytes, the size of %s, not of layout %s (%u)", those, layout->name, (unsigned)layout->number);
        return;
    }
    fprintf(stderr, " bytes; %s has ", layouts_of_size(D64_IMAGE_BYTES));
    print_number(D64_IMAGE_BYTES);
    fprintf(stderr, ", %s have ", layouts_of_size(D64_IMAGE40_BYTES));
    print_number(D64_IMAGE40_BYTES);
}

/* The answer says which mark of the map is wrong; what it is stands in the image. */
static void print_map(const struct answer *answer, const struct layout *layout, const uint8_t *image, size_t image_length)
{
    struct map_entry entry = map_entry_of(layout, image, image_length, answer->track);
    unsigned sector = answer->sector, marked = sectors_marked_free(&entry);

    fprintf(stderr, ": track %u, ", answer->track);
    if (sector != 255)
        fprintf(stderr, "sector %u is marked %s", sector, is_marked_free(&entry, sector) ? "free but owned" : "used but owned by nobody");
    else
        fprintf(stderr, "the count is %u, %u sector%s marked free", entry.count, marked, marked == 1 ? " is" : "s are");
}

static void print_place(enum place place, const struct answer *answer, const struct layout *layout, const uint8_t *image, size_t image_length)
{
    if (place == SIZE)
        print_size(layout, image_length);
    if (place == LINK)
        fprintf(stderr, "; the link is in track %u sector %u, ", answer->track, answer->sector);
    if (place == LINK && answer->slot == 255)
        fputs("in the directory", stderr);
    if (place == LINK && answer->slot != 255)
        fprintf(stderr, "file in slot %u", answer->slot);
    if (place == ENTRY)
        fprintf(stderr, "; the entry is in track %u sector %u, slot %u", answer->track, answer->sector, answer->slot);
    if (place == MAP)
        print_map(answer, layout, image, image_length);
}

int refuse(const struct answer *answer, const struct layout *layout, const uint8_t *image, size_t image_length, const char *hint)
{
    begin_line("");
    fprintf(stderr, "refused, %u", (unsigned)answer->number);
    if (answer->number < sizeof answers / sizeof answers[0]) {
        fprintf(stderr, ": %s", answers[answer->number].meaning);
        print_place(answers[answer->number].place, answer, layout, image, image_length);
    }
    fprintf(stderr, "%s\n", hint);
    return (int)answer->number;
}

void say(const char *format, ...)
{
    va_list arguments;

    if (quiet)
        return;
    end_progress();
    va_start(arguments, format);
    print_line(format, arguments);
    va_end(arguments);
}

void show_progress(size_t job, size_t jobs, const char *what, const char *name)
{
    if (quiet || !isatty(STDERR_FILENO))
        return;
    fprintf(stderr, "\r\033[K[%zu/%zu] %s %s", job, jobs, what, name);
    fflush(stderr);
    progress_shown = true;
}
