/* A program that runs for this process: how it is started, read and ended. For the client's own files. */
#ifndef GIST_RUN_H
#define GIST_RUN_H

#include "gist_client.h"

#include <stddef.h>
#include <sys/types.h>

/* A line that is written or looked at has at most so many bytes. */
enum { GIST_LINE = 128 };

typedef struct gist_run {
    pid_t pid;
    int to;     /* its standard input, or -1 */
    int from;   /* its standard output */
    int faults; /* a file in memory for its standard error, which never fills as a pipe may */
} gist_run;

/* Starts the program with the arguments after its name; words[0] is set to its path. Returns GIST_OK or GIST_SYSTEM. */
int gist_run_start(gist_run *made, const char *program, const char **words);

/* Reads what has come of its output, once there is something. Returns how much, 0 at the end of all, -1 for a fault. */
ssize_t gist_run_read(const gist_run *it, char *bytes, size_t room);

/* Closes its input, so that it ends. */
void gist_run_close_input(gist_run *it);

/* Closes what this process has of it, and does nothing to it. */
void gist_run_forget(gist_run *it);

/* Waits for its end, says how it ended, and closes what is left of it. `last` is the last line that it printed. Returns
   GIST_OK if it ended well, the refusal with which it ended, or GIST_ENDED. */
int gist_run_finish(gist_run *it, const char *last, gist_end *end);

/* The status for what a line says after `refused `, or GIST_PROTOCOL. */
int gist_run_refusal(const char *words);

/* Refuses a call whose arguments make no sense: GIST_SYSTEM, with EINVAL. */
int gist_run_invalid(void);

/* As many frames as the index in a file has pages, 16 to 4096; 64 if the file can't be read. */
unsigned gist_run_frames(const char *path);

/* Of which boxes the index in a file is: GIST_OK if `*dimensions` is 2 or 3, GIST_SYSTEM if the file can't be
   read, and GIST_PROTOCOL if it is of other keys. */
int gist_run_dimensions(const char *path, unsigned *dimensions);

#endif
