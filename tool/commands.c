#include "jobs.h"
#include <string.h>

#define NAMES_HELP \
    "Names are text: A-Z are the letters without shift, a-z those with shift, \\xNN is any byte.\n"

static const struct command commands[] = {
    {"format", FORMAT, "NAME ID", 2, 2, true, true,
     "Makes IMAGE a disk without files, whatever was on it, or creates it. ID is two characters.\n" NAMES_HELP},
    {"check", CHECK, "", 0, 0, true, false,
     "Checks the whole image: directory, entries, chains of sectors, and the map of free sectors.\n"
     "Prints 'accepted', or the first fault with its place.\n"},
    {"dir", DIR, "", 0, 0, false, false,
     "Prints the directory as a drive lists it: blocks, name, type ('<' for a locked file), blocks free.\n"},
    {"read", READ, "NAME FILE", 2, 2, true, false,
     "Copies the file NAME of the disk to FILE; '-' is standard output.\n" NAMES_HELP},
    {"store", STORE, "NAME FILE [TYPE]", 2, 3, true, true,
     "Stores the bytes of FILE on the disk as a new file NAME; '-' is standard input.\n"
     "TYPE is seq or prg; prg if it is not given.\n" NAMES_HELP},
    {"scratch", SCRATCH, "NAME", 1, 1, true, true,
     "Removes the file NAME, locked or not, and leaves zeros in the sectors that held it.\n" NAMES_HELP},
    {"listing", LISTING, "", 0, 0, false, false,
     "Prints the sleeve listing in hexadecimal: disk name and id, a line for each file, free sectors.\n"
     "It is made from track 18 alone: chains and the map are not checked.\n"},
    {"run", RUN, NULL, 1, 1, false, false,
     "Carries out the list of jobs in the file JOBS, and writes the image once, after the last. A line is one of\n"
     "    format NAME ID\n    store NAME FILE [TYPE]\n    scratch NAME\n    read NAME FILE\n    check\n"
     "with quotes around a word that has blanks. '#' starts a comment line.\n"
     "Stops at the first job that is refused or fails, with its line, and leaves IMAGE as it was;\n"
     "with --keep-going such jobs, but for format, are left out and the others are done.\n" NAMES_HELP},
};

const struct command *command_at(size_t place)
{
    return place < sizeof commands / sizeof commands[0] ? &commands[place] : NULL;
}

const struct command *find_command(const char *word)
{
    const struct command *command = NULL;

    for (size_t i = 0; (command = command_at(i)) != NULL; i++)
        if (strcmp(command->word, word) == 0)
            break;
    return command;
}
