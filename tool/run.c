#include "run.h"
#include "directory.h"
#include "image.h"
#include "messages.h"
#include <stdio.h>
#include <string.h>

static struct image image;
static uint8_t data[LARGEST_IMAGE_BYTES]; /* no disk takes so much: a file that is cut here is refused */
static uint8_t piped[LARGEST_IMAGE_BYTES];
static uint8_t output[LARGEST_IMAGE_BYTES];
static size_t piped_length;

static const char *image_name(void)
{
    return is_stream(image.path) ? "the image" : image.path;
}

static bool any_changes(const struct job_list *list)
{
    for (size_t i = 0; i < list->count; i++)
        if (list->jobs[i].command->changes_image)
            return true;
    return false;
}

static bool starts_new(const struct job_list *list)
{
    return list->count > 0 && list->jobs[0].command->verb == FORMAT;
}

/* Where a file of the disk may not go: over its own image, into a lock, or among the image's bytes. */
static int check_output(const char *path, const char *image_path, bool output_used)
{
    if (is_stream(path) && output_used)
        return fail(STATUS_USAGE, "standard output is for the image");
    if (same_file(path, image_path))
        return fail(STATUS_USAGE, "%s is the image itself", path);
    return is_temporary_name(path) ? fail(STATUS_USAGE, "%s is the name of a temporary file", path) : 0;
}

/* Standard input and output have one use each, and outputs may not be just anything. */
static int check_paths(const struct job_list *list, const char *image_path, bool for_change)
{
    bool input_used = list->from_stream || (is_stream(image_path) && !starts_new(list));
    bool output_used = is_stream(image_path) && for_change;
    int status = is_temporary_name(image_path) ? fail(STATUS_USAGE, "%s is the name of a temporary file", image_path) : 0;

    for (size_t i = 0; status == 0 && i < list->count; i++) {
        const struct job *job = &list->jobs[i];

        set_line(job->line);
        if (job->command->verb == STORE && is_stream(job->file)) {
            if (input_used)
                status = fail(STATUS_USAGE, "standard input is asked for twice");
            input_used = true;
        }
        if (job->command->verb == READ)
            status = check_output(job->file, image_path, output_used);
    }
    set_line(0);
    return status;
}

/* What comes from a pipe is read before the image is locked: it may take long. */
static int read_piped(const struct job_list *list)
{
    for (size_t i = 0; i < list->count; i++)
        if (list->jobs[i].command->verb == STORE && is_stream(list->jobs[i].file))
            return read_file("-", piped, sizeof piped, &piped_length);
    return 0;
}

static int store(const struct job *job, struct answer *answer)
{
    bool from_pipe = is_stream(job->file);
    size_t length = piped_length;
    uint8_t block[D64_BLOCK_BYTES];
    int status = from_pipe ? 0 : read_file(job->file, data, sizeof data, &length);

    if (status == 0)
        *answer = answer_of(d64_store(image.layout->number, image.bytes, image.length, job->name.bytes, job->name.length, job->kind,
                                      from_pipe ? piped : data, length, block, sizeof block), block);
    return status;
}

static int read_to_file(const struct job *job, struct answer *answer)
{
    uint8_t block[D64_BLOCK_BYTES];
    uint32_t number = d64_read(image.layout->number, image.bytes, image.length, job->name.bytes, job->name.length,
                               output, sizeof output, block, sizeof block);

    *answer = answer_of(number, block);
    return number == D64_DONE ? write_file(job->file, output, answer->length) : 0;
}

/* Asks the library. The status is the tool's own; what the library says is in the answer. */
static int ask(const struct job *job, struct answer *answer)
{
    const struct name *name = &job->name, *id = &job->id;
    uint32_t layout = image.layout->number;
    uint8_t block[D64_BLOCK_BYTES];

    switch (job->command->verb) {
    case FORMAT:
        *answer = answer_of(d64_format(layout, image.bytes, image.length, name->bytes, name->length, id->bytes[0], id->bytes[1],
                                       block, sizeof block), block);
        return 0;
    case SCRATCH:
        *answer = answer_of(d64_scratch(layout, image.bytes, image.length, name->bytes, name->length, block, sizeof block), block);
        return 0;
    case STORE:
        return store(job, answer);
    case READ:
        return read_to_file(job, answer);
    case DIR:
        return print_directory(image.layout, image.bytes, image.length, answer);
    case LISTING:
        return print_listing(image.layout, image.bytes, image.length, answer);
    default:
        *answer = answer_of(d64_check(layout, image.bytes, image.length, block, sizeof block), block);
        return 0;
    }
}

/* What a clerk may not know of a refusal, behind its meaning. */
static const char *hint_of(const struct job *job, const struct answer *answer)
{
    if (answer->number == D64_NOT_FOUND && has_shifted_letters(&job->name))
        return "; small letters are those with shift";
    if (answer->number == D64_BAD_KIND && job->kind == 3)
        return "; USR files can no longer be stored";
    if (answer->number == D64_WRONG_MAP && answer->track >= FIRST_EXTRA_TRACK)
        return image.layout->number == D64_LAYOUT_SPEEDDOS ? "; layout dolphin (2) has this entry elsewhere"
                                                           : "; layout speeddos (1) has this entry elsewhere";
    return "";
}

static int do_job(const struct job *job, struct answer *answer)
{
    int status;

    set_line(job->line);
    status = ask(job, answer);
    if (status == 0 && answer->number != D64_DONE)
        status = refuse(answer, image.layout, image.bytes, image.length, hint_of(job, answer));
    set_line(0);
    return status;
}

static void show_job(const struct job_list *list, size_t place)
{
    char text[NAME_TEXT_BYTES(16)];

    text_of_name(list->jobs[place].name.bytes, list->jobs[place].name.length, text, sizeof text);
    show_progress(place + 1, list->count, list->jobs[place].command->word, text);
}

struct outcome {
    size_t done;
    int status;   /* of the first job that was not done */
    bool stopped; /* the image is not to be written */
};

/* Does the jobs in memory. After a format that was not done, what follows is meant for another disk than the one that is there. */
static struct outcome do_jobs(const struct job_list *list, bool keep_going)
{
    struct outcome outcome = {.status = 0};
    struct answer answer;

    for (size_t i = 0; i < list->count && !outcome.stopped; i++) {
        int status;

        show_job(list, i);
        status = do_job(&list->jobs[i], &answer);
        outcome.done += status == 0;
        outcome.status = outcome.status != 0 ? outcome.status : status;
        outcome.stopped = status != 0 && (!keep_going || list->jobs[i].command->verb == FORMAT);
    }
    end_progress();
    return outcome;
}

/* An image that nothing is to be done to is checked all the same. */
static struct outcome do_list(const struct job_list *list, bool keep_going)
{
    struct job check = {.command = find_command("check")};
    const struct job_list checked = {.jobs = &check, .count = 1};
    struct outcome outcome = do_jobs(list->count > 0 ? list : &checked, keep_going);

    if (list->count == 0)
        outcome.done = 0;
    return outcome;
}

static int prepare(const struct job_list *list, const struct layout *layout, const char *image_path, bool for_change)
{
    int status = check_paths(list, image_path, for_change);

    if (status == 0)
        status = read_piped(list);
    if (status == 0)
        status = image_open(&image, layout, image_path, for_change, starts_new(list));
    return status;
}

int carry_out(const struct job_list *list, const struct layout *layout, const char *image_path, bool keep_going)
{
    bool for_change = any_changes(list) || is_stream(image_path); /* whoever pipes an image through a list wants it back */
    int status = prepare(list, layout, image_path, for_change);
    struct outcome outcome;
    bool written = false;

    if (status != 0)
        return status;
    outcome = do_list(list, keep_going);
    if (outcome.stopped)
        image_drop(&image);
    else
        status = image_save(&image, &written);
    if (status == 0)
        say("%s%zu of %zu jobs%s; %s is %s", outcome.stopped ? "stopped after " : "", outcome.done, list->count, outcome.stopped ? "" : " done",
            image_name(), written ? "written" : image.is_new ? "not made" : "unchanged");
    return status != 0 ? status : outcome.status;
}

static const char *plural(uint32_t number)
{
    return number == 1 ? "" : "s";
}

static void say_done(const struct job *job, const struct answer *answer)
{
    static const char *const words[] = {[READ] = "read", [STORE] = "stored", [SCRATCH] = "scratched"};
    enum verb verb = job->command->verb;
    char text[NAME_TEXT_BYTES(16)];

    text_of_name(job->name.bytes, job->name.length, text, sizeof text);
    if (verb == FORMAT)
        say("formatted \"%s\"", text);
    if (verb == READ || verb == STORE || verb == SCRATCH)
        say("%s \"%s\", %u byte%s in %u sector%s", words[verb], text, (unsigned)answer->length, plural(answer->length),
            (unsigned)answer->sectors, plural(answer->sectors));
    if (verb == CHECK && !is_quiet())
        puts("accepted");
}

int carry_out_one(struct job *job, const struct layout *layout, const char *image_path)
{
    const struct job_list list = {.jobs = job, .count = 1};
    struct answer answer;
    bool written;
    int status = prepare(&list, layout, image_path, job->command->changes_image);

    if (status != 0)
        return status;
    status = do_job(job, &answer);
    if (status != 0) {
        image_drop(&image);
        return status;
    }
    status = image_save(&image, &written);
    if (status == 0)
        say_done(job, &answer);
    return status;
}
