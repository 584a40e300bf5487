/* What an index that is compared does in threads (commits.c). Each peer is one file with these functions. What can't be
   done ends the program. */
#ifndef COMMITS_H
#define COMMITS_H

#include <stdbool.h>
#include <stdio.h>
#include <stdlib.h>

typedef struct client client;

/* Says what can't be done, and ends the program. */
static inline void stop(const char *what, const char *why) {
    fprintf(stderr, "%s: %s\n", what, why);
    exit(1);
}

/* A connection of its own; the first one makes the index anew. */
client *client_open(const char *path, bool is_first);
void client_close(client *by);
/* A transaction: a search of the session's strip, if one is wanted; then the insert of a box at this place of it,
   and a commit. */
void client_transact(client *by, long session, int place, bool searches);
/* A transaction that reads alone: its begin, a search of the session's strip, and its end. */
void client_begin(client *by);
void client_search(client *by, long session);
void client_abort(client *by);

#endif
