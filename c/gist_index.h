/* An open index, for the client's own files: what it is, and how a call is made of it. */
#ifndef GIST_INDEX_H
#define GIST_INDEX_H

#include "gist_run.h"

#include <stddef.h>
#include <stdint.h>
#include <sys/types.h>

/* So many lines are written before their answers are read. The answer to a write has at most 40 bytes, so the answers
   to these fit in the smallest pipe that Linux makes (4,096 bytes): the program never waits until this process reads,
   so it always reads on, and a write to it always ends. */
enum { GIST_AHEAD = 100 };

/* And so many searches. Their lines fit in the smallest buffer of a socket, so that writing them always ends, though
   the program waits for their answers to be read. */
enum { GIST_SEARCHES = 16 };

struct gist_index {
    gist_run run;
    pid_t owner;  /* the process that opened it */
    int status;   /* GIST_OK until the program has ended, then why */
    gist_end end; /* how */
    unsigned busy;
    unsigned dimensions; /* of its boxes */
    char *bytes;         /* the answers of the last call */
    size_t length, room;
    void *found; /* what the last search found */
    size_t held; /* how many bytes there are for that */
};

/* GIST_OK if this process may use the index. */
int gist_index_usable(const gist_index *index);

/* Ends a program that said what makes no sense, and returns GIST_PROTOCOL. */
int gist_index_senseless(gist_index *index);

/* Writes lines, and reads the answers of the calls that they make. */
int gist_index_exchange(gist_index *index, const char *lines, size_t length, size_t calls);

/* What one answer says: GIST_OK if it is the expected one, and what follows that. */
int gist_index_answer(gist_index *index, unsigned session, const char *line, const char *expected, const char **rest);

/* Reads the number that ends a line, and returns the next line, or NULL if no number ends it. */
const char *gist_index_last_number(const char *at, uint64_t *number);

#endif
