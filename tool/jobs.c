#include "jobs.h"
#include "files.h"
#include "messages.h"
#include <stdlib.h>
#include <string.h>
#include <strings.h>

enum { MOST_WORDS = 5 }; /* one more than any job has, so that too many are seen */

/* A kind by name or number; which of them can be stored is the library's to say, also of a number that is too large for it. */
static bool kind_of_text(const char *text, uint32_t *kind)
{
    static const char *const kinds[] = {"del", "seq", "prg", "usr", "rel"};
    unsigned long number;

    for (uint32_t i = 0; i < sizeof kinds / sizeof kinds[0]; i++)
        if (strcasecmp(text, kinds[i]) == 0) {
            *kind = i;
            return true;
        }
    number = strtoul(text, NULL, 10);
    *kind = number < UINT32_MAX ? (uint32_t)number : UINT32_MAX;
    return text[0] != '\0' && text[strspn(text, "0123456789")] == '\0';
}

static int take_name(struct name *name, char *text)
{
    if (!name_of_text(text, name))
        return fail(STATUS_USAGE, "'%s' holds a character that names do not have; any byte can be written as \\xNN", text);
    return 0;
}

int job_of_words(struct job *job, const struct command *command, char **words, size_t count)
{
    enum verb verb = command->verb;
    int status = 0;

    job->command = command;
    job->kind = 2;
    if (command->fewest > 0)
        status = take_name(&job->name, words[0]);
    if (status == 0 && verb == FORMAT) {
        status = take_name(&job->id, words[1]);
        if (status == 0 && job->id.length != 2)
            status = fail(STATUS_USAGE, "an id is two characters");
    }
    if (verb == READ || verb == STORE)
        job->file = words[1];
    if (status == 0 && verb == STORE && count == 3 && !kind_of_text(words[2], &job->kind))
        status = fail(STATUS_USAGE, "'%s' is no type; expected seq, prg or a number (a name with blanks needs quotes)", words[2]);
    return status;
}

/* Cuts the next word off the line, in its own memory. NULL at the end of the line. */
static char *next_word(char **rest, bool *open_quote)
{
    char *from = *rest + strspn(*rest, " \t"), *word = from, *to = from, quote = '\0';
    bool at_end;

    if (*from == '\0')
        return NULL;
    for (; *from != '\0' && (quote != '\0' || (*from != ' ' && *from != '\t')); from++) {
        bool is_quote = quote != '\0' ? *from == quote : *from == '"' || *from == '\'';

        if (is_quote)
            quote = quote != '\0' ? '\0' : *from;
        else
            *to++ = *from;
    }
    *open_quote = quote != '\0';
    at_end = *from == '\0';
    *to = '\0';
    *rest = at_end ? from : from + 1;
    return word;
}

/* The words of a line, at most MOST_WORDS of them. */
static int split_line(char *line, char **words, size_t *count)
{
    bool open_quote = false;
    char *word;

    for (*count = 0; *count < MOST_WORDS && (word = next_word(&line, &open_quote)) != NULL; (*count)++)
        words[*count] = word;
    return open_quote ? fail(STATUS_USAGE, "a quote is not closed") : 0;
}

static int job_of_line(struct job *job, char *line)
{
    char *words[MOST_WORDS];
    const struct command *command;
    size_t count;
    int status = split_line(line, words, &count);

    if (status != 0)
        return status;
    command = find_command(words[0]);
    if (command == NULL || !command->in_job_lists)
        return fail(STATUS_USAGE, "'%s' is no job; expected format, store, scratch, read or check", words[0]);
    if (count - 1 < command->fewest || count - 1 > command->most)
        return fail(STATUS_USAGE, "expected %s%s%s", command->word, command->most > 0 ? " " : "", command->operands);
    return job_of_words(job, command, words + 1, count - 1);
}

static bool is_skipped(const char *line)
{
    line += strspn(line, " \t");
    return *line == '\0' || *line == '#';
}

static int add_job(struct job_list *list, char *line, unsigned number)
{
    struct job *more;

    if (is_skipped(line))
        return 0;
    if ((list->count & (list->count - 1)) == 0) { /* full at each power of two */
        more = realloc(list->jobs, (list->count == 0 ? 1 : 2 * list->count) * sizeof *more);
        if (more == NULL)
            return fail(STATUS_NO_MEMORY, "no memory left for the job list");
        list->jobs = more;
    }
    list->jobs[list->count] = (struct job){.line = number};
    return job_of_line(&list->jobs[list->count++], line);
}

/* Ends the line where it stops, and at a carriage return before that. */
static char *end_line(char *line, char *stop)
{
    *stop = '\0';
    if (stop > line && stop[-1] == '\r')
        stop[-1] = '\0';
    return line;
}

int read_job_list(struct job_list *list, const char *path)
{
    size_t length = 0;
    int status = read_text(path, &list->text, &length);
    char *line = list->text, *end = line + length, *stop;

    if (status == 0 && length >= 3 && memcmp(line, "\xEF\xBB\xBF", 3) == 0)
        line += 3; /* the mark that some editors put before a text in UTF-8 */
    for (unsigned number = 1; status == 0 && line < end; line = stop + 1, number++) {
        stop = memchr(line, '\n', (size_t)(end - line));
        stop = stop != NULL ? stop : end;
        set_line(number);
        if (memchr(line, '\0', (size_t)(stop - line)) != NULL)
            status = fail(STATUS_USAGE, "a NUL byte is no text; %s is no job list", path);
        else
            status = add_job(list, end_line(line, stop), number);
    }
    set_line(0);
    return status;
}

void free_job_list(struct job_list *list)
{
    free(list->jobs);
    free(list->text);
}
