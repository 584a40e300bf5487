/* gist: by its client for C, where GIST names the program; or in process, where IN_PROCESS is defined. */
#include "peers.h"

#ifdef IN_PROCESS
#include "gist.h"
#else
#include "gist_client.h"
#endif

#include <pthread.h>
#include <stdio.h>
#include <stdlib.h>

static gist_index *index_of;
#ifndef IN_PROCESS
/* the client is used by one thread at a time */
static pthread_mutex_t turn = PTHREAD_MUTEX_INITIALIZER;
#endif

static void expect(const char *what, int status) {
    if (status != GIST_OK) stop(what, gist_text(status));
}

unsigned peer_writers(void) {
    return 4;
}

void peer_open(const char *path, size_t entries, bool is_new) {
    gist_end end;
    size_t pages = entries / 40 + 64;
    if (pages > 65536) pages = 65536;
    if (is_new && gist_format(NULL, path, (unsigned)pages, 100, GIST_OVERWRITE, &end) != GIST_OK)
        stop("format", end.sentence);
    if (gist_open(&index_of, NULL, path, MEMORY / 4, &end) != GIST_OK) stop("open", end.sentence);
}

void peer_close(void) {
    expect("close", gist_close(index_of, NULL));
}

void peer_begin(void) {
    expect("begin", gist_begin(index_of, 1));
}

void peer_commit(void) {
    expect("commit", gist_commit(index_of, 1, NULL));
}

void peer_abort(void) {
    expect("abort", gist_abort(index_of, 1));
}

static void copy(gist_entry *to, const pair *from, size_t count) {
    for (size_t i = 0; i < count; i++)
        to[i] = (gist_entry){from[i].row, {from[i].x1, from[i].y1, from[i].x2, from[i].y2}};
}

void peer_insert(const pair *pairs, size_t count) {
    gist_entry entries[BATCH];
    copy(entries, pairs, count);
    expect("insert", gist_insert_many(index_of, 1, entries, count, NULL));
}

void peer_delete(const pair *pairs, size_t count) {
    gist_entry entries[BATCH];
    copy(entries, pairs, count);
    expect("delete", gist_delete_many(index_of, 1, entries, count, NULL));
}

static void hand(const gist_entry *hits, size_t count, void (*found)(const pair *)) {
    for (size_t i = 0; i < count; i++)
        found(&(pair){hits[i].row, hits[i].box.x1, hits[i].box.y1, hits[i].box.x2, hits[i].box.y2});
}

void peer_search(const pair *window, void (*found)(const pair *)) {
    const gist_entry *hits;
    size_t count;
    expect("search", gist_search(index_of, 1, GIST_OVERLAP, (gist_box){window->x1, window->y1, window->x2, window->y2},
                                 &hits, &count));
    hand(hits, count, found);
}

void peer_search_many(const pair *windows, size_t count, void (*found)(const pair *)) {
    gist_box boxes[SEARCHES] = {{0}};
    gist_hits hits[SEARCHES];
    for (size_t i = 0; i < count; i++)
        boxes[i] = (gist_box){windows[i].x1, windows[i].y1, windows[i].x2, windows[i].y2};
    expect("searches", gist_search_many(index_of, 1, GIST_OVERLAP, boxes, count, hits, NULL));
    for (size_t i = 0; i < count; i++) hand(hits[i].found, hits[i].count, found);
}

/* A call, in its turn: threads share an index in process, which takes turns itself. */
#ifdef IN_PROCESS
#define IN_TURN(call) (status = (call), expect("write", status))
#else
#define IN_TURN(call) (pthread_mutex_lock(&turn), status = (call), pthread_mutex_unlock(&turn), expect("write", status))
#endif

void peer_write(unsigned writer, const pair *it) {
    int status;
    IN_TURN(gist_begin(index_of, writer + 1));
    IN_TURN(gist_insert(index_of, writer + 1, it->row, (gist_box){it->x1, it->y1, it->x2, it->y2}));
    IN_TURN(gist_commit(index_of, writer + 1, NULL));
}

uint64_t peer_bytes(const char *path) {
    return bytes_of(path, "");
}
