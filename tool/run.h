/* Carries out jobs on one image. */
#ifndef RUN_H
#define RUN_H

#include "jobs.h"
#include "layouts.h"

/* Does the jobs in turn, all in one layout, and writes the image once, after the last. Returns the exit status. */
int carry_out(const struct job_list *list, const struct layout *layout, const char *image_path, bool keep_going);

/* The same for one job of the command line, which is told when it is done. */
int carry_out_one(struct job *job, const struct layout *layout, const char *image_path);

#endif
