/* d64: the command line over libd64. What it does is in d64(1). */
#define _GNU_SOURCE
#include "files.h"
#include "messages.h"
#include "run.h"
#include <getopt.h>
#include <stdio.h>
#include <stdlib.h>
#include <string.h>

#ifndef D64_VERSION
#define D64_VERSION "unknown"
#endif

struct options {
    bool help, keep_going;
    const struct layout *layout; /* NULL until one is named */
};

static void print_synopsis(FILE *file, const struct command *command)
{
    if (command->verb == RUN)
        fputs("d64 run [--keep-going] JOBS IMAGE", file);
    else
        fprintf(file, "d64 %s IMAGE%s%s", command->word, command->most > 0 ? " " : "", command->operands);
}

static int expected(const struct command *command, const char *seen)
{
    fprintf(stderr, "d64 %s: %s; expected: ", command->word, seen);
    print_synopsis(stderr, command);
    fprintf(stderr, "\nsee d64 %s --help\n", command->word);
    return STATUS_USAGE;
}

static void print_help(const struct command *command)
{
    fputs("usage: ", stdout);
    print_synopsis(stdout, command);
    printf("\n\n%s\n", command->help);
    puts("--layout LAYOUT is the layout of the image: 35 (or 0), speeddos (1) or dolphin (2); 35 if it is not given.\n"
         "--quiet prints no line for what is done; -- ends the options. IMAGE '-' is standard input, and standard\n"
         "output for a changed image. The exit status is the library's answer number, or over 63; see d64(1).");
}

static void print_overview(FILE *file)
{
    const struct command *command;

    fputs("usage:\n", file);
    for (size_t i = 0; (command = command_at(i)) != NULL; i++) {
        fputs("    ", file);
        print_synopsis(file, command);
        fputc('\n', file);
    }
    fputs("each takes --layout LAYOUT: 35, speeddos or dolphin; 35 if it is not given\n", file);
    fputs("see d64 COMMAND --help, and d64(1)\n", file);
}

/* The option that was not understood, as it was typed. */
static int unknown_option(const struct command *command, char **words)
{
    char seen[128];

    if (strncmp(words[optind - 1], "--", 2) == 0)
        snprintf(seen, sizeof seen, "unknown option %.100s", words[optind - 1]);
    else
        snprintf(seen, sizeof seen, "unknown option -%c", optopt);
    return expected(command, seen);
}

static int take_layout(const struct command *command, const char *text, struct options *options)
{
    if (options->layout != NULL)
        return expected(command, "--layout is given twice");
    options->layout = layout_of_text(text);
    if (options->layout == NULL)
        return fail(STATUS_USAGE, "'%s' is no layout; expected 35, speeddos or dolphin, or 0, 1 or 2", text);
    return 0;
}

/* One option as getopt_long() finds it. */
static int take_option(int option, const struct command *command, char **words, struct options *options)
{
    if (option == 'l')
        return take_layout(command, optarg, options);
    if (option == ':')
        return expected(command, "--layout is without a layout");
    if (option == 'k' && command->verb != RUN)
        return expected(command, "--keep-going is for run");
    if (option == '?')
        return unknown_option(command, words);
    if (option == 'h')
        options->help = true;
    if (option == 'k')
        options->keep_going = true;
    if (option == 'q')
        keep_quiet();
    return 0;
}

static int read_options(const struct command *command, int count, char **words, struct options *options)
{
    static const struct option names[] = {
        {"help", no_argument, NULL, 'h'},
        {"quiet", no_argument, NULL, 'q'},
        {"keep-going", no_argument, NULL, 'k'},
        {"layout", required_argument, NULL, 'l'},
        {NULL, 0, NULL, 0},
    };
    int option, status = 0;

    opterr = 0;
    while (status == 0 && (option = getopt_long(count, words, ":hqk", names, NULL)) != -1)
        status = take_option(option, command, words, options);
    if (options->layout == NULL)
        options->layout = usual_layout();
    return status;
}

static int run_list(const char *jobs_path, const char *image_path, const struct options *options)
{
    struct job_list list = {.from_stream = is_stream(jobs_path)};
    int status;

    if (is_stream(jobs_path) && is_stream(image_path))
        return fail(STATUS_USAGE, "standard input is asked for twice");
    status = read_job_list(&list, jobs_path);
    if (status == 0)
        status = carry_out(&list, options->layout, image_path, options->keep_going);
    free_job_list(&list);
    return status;
}

static int run_command(const struct command *command, char **operands, size_t count, const struct options *options)
{
    struct job job = {.line = 0};
    int status;

    if (count < command->fewest + 1 || count > command->most + 1)
        return expected(command, count < command->fewest + 1 ? "an operand is missing" : "too many operands");
    if (command->verb == RUN)
        return run_list(operands[0], operands[1], options);
    status = job_of_words(&job, command, operands + 1, count - 1);
    return status != 0 ? status : carry_out_one(&job, options->layout, operands[0]);
}

static int do_command(const struct command *command, int count, char **words)
{
    struct options options = {.help = false};
    int status = read_options(command, count, words, &options);

    if (status != 0)
        return status;
    if (options.help) {
        print_help(command);
        return 0;
    }
    return run_command(command, words + optind, (size_t)(count - optind), &options);
}

static int do_word(int count, char **words)
{
    const char *word = count > 1 ? words[1] : "";
    const struct command *command = find_command(word);

    if (command != NULL)
        return do_command(command, count - 1, words + 1);
    if (strcmp(word, "--version") == 0) {
        puts("d64 " D64_VERSION);
        return 0;
    }
    if (strcmp(word, "--help") == 0 || strcmp(word, "-h") == 0 || strcmp(word, "help") == 0) {
        print_overview(stdout);
        return 0;
    }
    if (count > 1)
        fprintf(stderr, "d64: '%s' is no command%s\n", word, word[0] == '-' ? "; options stand behind the command" : "");
    print_overview(stderr);
    return STATUS_USAGE;
}

int main(int count, char **words)
{
    int status = open_standard_streams();

    if (status != 0)
        return status;
    unsetenv("POSIXLY_CORRECT"); /* options may stand behind operands, whatever the environment says */
    print_whole_lines();
    watch_signals();
    status = do_word(count, words);
    if ((fflush(stdout) != 0 || ferror(stdout) != 0) && status == 0)
        status = fail_file(STATUS_NO_OUTPUT, "write", "standard output");
    return status;
}
