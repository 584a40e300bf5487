/* What each index that is compared does for the common workload (workload.c). Each peer is one file with these
   functions; a program is that file with workload.c, or with run_script.c. What can't be done ends the program by
   `stop`. */
#ifndef PEERS_H
#define PEERS_H

#include <stdbool.h>
#include <stddef.h>
#include <stdint.h>
#include <stdio.h>
#include <stdlib.h>
#include <sys/stat.h>

#ifdef __cplusplus
extern "C" {
#endif

/* How many entries a transaction has as they are loaded, how many searches one makes at most, and the memory that a
   peer may hold of its file, in KB. */
enum { BATCH = 100, SEARCHES = 16, MEMORY = 16384 };

/* A row with its box. */
typedef struct pair {
    uint64_t row;
    int32_t x1, y1, x2, y2;
} pair;

/* Says what can't be done, and ends the program. */
static inline void stop(const char *what, const char *why) {
    fprintf(stderr, "%s: %s\n", what, why);
    exit(1);
}

/* The bytes that a file has on the disk, 0 where it isn't there. Its name is a path with an ending. */
static inline uint64_t bytes_of(const char *path, const char *ending) {
    char whole[4096];
    struct stat it;
    snprintf(whole, sizeof whole, "%s%s", path, ending);
    return stat(whole, &it) == 0 ? (uint64_t)it.st_blocks * 512 : 0;
}

/* How many may write at once: 0 where nothing is kept in a transaction. */
unsigned peer_writers(void);
/* Opens the index in a file or a folder, for so many entries; a new one is made. */
void peer_open(const char *path, size_t entries, bool is_new);
void peer_close(void);
void peer_begin(void);
void peer_commit(void);
void peer_abort(void);
/* Adds or takes away entries, BATCH at most. */
void peer_insert(const pair *pairs, size_t count);
void peer_delete(const pair *pairs, size_t count);
/* Calls `found` for each entry whose box shares a point with this one, whose row counts for nothing. */
void peer_search(const pair *window, void (*found)(const pair *));
/* The same for several windows, SEARCHES at most, all of them known before the first is asked. */
void peer_search_many(const pair *windows, size_t count, void (*found)(const pair *));
/* Adds one entry with its own commit, as one of the writers, from 0; several threads do so at once. */
void peer_write(unsigned writer, const pair *it);
/* The bytes that the index has on the disk. */
uint64_t peer_bytes(const char *path);

#ifdef __cplusplus
}
#endif

#endif
