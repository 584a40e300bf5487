/* SQLite's R*Tree: 32-bit corners, write-ahead log, full sync, prepared statements. Corners are below 2^24, so that
   they are kept unchanged. */
#include "peers.h"

#include <sqlite3.h>
#include <stdio.h>

enum { WRITERS = 4 };

typedef struct connection {
    sqlite3 *base;
    sqlite3_stmt *insert, *remove, *overlap;
} connection;

/* the first one does all but what the writers do */
static connection all[WRITERS];

static void run(sqlite3 *base, const char *words) {
    if (sqlite3_exec(base, words, NULL, NULL, NULL) != SQLITE_OK) stop(words, sqlite3_errmsg(base));
}

static sqlite3_stmt *prepare(sqlite3 *base, const char *words) {
    sqlite3_stmt *made = NULL;
    if (sqlite3_prepare_v3(base, words, -1, SQLITE_PREPARE_PERSISTENT, &made, NULL) != SQLITE_OK)
        stop(words, sqlite3_errmsg(base));
    return made;
}

static void step(connection *by, sqlite3_stmt *it) {
    if (sqlite3_step(it) != SQLITE_DONE) stop("step", sqlite3_errmsg(by->base));
    sqlite3_reset(it);
}

unsigned peer_writers(void) {
    return WRITERS;
}

void peer_open(const char *path, size_t entries, bool is_new) {
    char cache[64];
    (void)entries;
    snprintf(cache, sizeof cache, "PRAGMA cache_size=-%d", MEMORY);
    for (connection *it = all; it < all + WRITERS; it++) {
        if (sqlite3_open(path, &it->base) != SQLITE_OK) stop("open", sqlite3_errmsg(it->base));
        sqlite3_busy_timeout(it->base, 60000);
        run(it->base, "PRAGMA journal_mode=WAL");
        run(it->base, "PRAGMA synchronous=FULL");
        run(it->base, cache);
        if (is_new && it == all) run(it->base, "CREATE VIRTUAL TABLE boxes USING rtree_i32(id, x1, x2, y1, y2)");
        it->insert = prepare(it->base, "INSERT INTO boxes VALUES (?, ?, ?, ?, ?)");
    }
    all->remove = prepare(all->base, "DELETE FROM boxes WHERE id = ?");
    all->overlap =
        prepare(all->base, "SELECT id, x1, y1, x2, y2 FROM boxes WHERE x1 <= ? AND x2 >= ? AND y1 <= ? AND y2 >= ?");
}

void peer_close(void) {
    sqlite3_finalize(all->remove);
    sqlite3_finalize(all->overlap);
    for (connection *it = all; it < all + WRITERS; it++) {
        sqlite3_finalize(it->insert);
        sqlite3_close(it->base);
    }
}

void peer_begin(void) {
    run(all->base, "BEGIN");
}

void peer_commit(void) {
    run(all->base, "COMMIT");
}

void peer_abort(void) {
    run(all->base, "ROLLBACK");
}

static void insert(connection *by, const pair *it) {
    sqlite3_bind_int64(by->insert, 1, (sqlite3_int64)it->row);
    sqlite3_bind_int(by->insert, 2, it->x1);
    sqlite3_bind_int(by->insert, 3, it->x2);
    sqlite3_bind_int(by->insert, 4, it->y1);
    sqlite3_bind_int(by->insert, 5, it->y2);
    step(by, by->insert);
}

void peer_insert(const pair *pairs, size_t count) {
    for (size_t i = 0; i < count; i++) insert(all, &pairs[i]);
}

void peer_delete(const pair *pairs, size_t count) {
    for (size_t i = 0; i < count; i++) {
        sqlite3_bind_int64(all->remove, 1, (sqlite3_int64)pairs[i].row);
        step(all, all->remove);
        if (sqlite3_changes(all->base) != 1) stop("delete", "it isn't there");
    }
}

void peer_search(const pair *window, void (*found)(const pair *)) {
    sqlite3_stmt *it = all->overlap;
    int told;
    sqlite3_bind_int(it, 1, window->x2);
    sqlite3_bind_int(it, 2, window->x1);
    sqlite3_bind_int(it, 3, window->y2);
    sqlite3_bind_int(it, 4, window->y1);
    while ((told = sqlite3_step(it)) == SQLITE_ROW)
        found(&(pair){(uint64_t)sqlite3_column_int64(it, 0), sqlite3_column_int(it, 1), sqlite3_column_int(it, 2),
                      sqlite3_column_int(it, 3), sqlite3_column_int(it, 4)});
    if (told != SQLITE_DONE) stop("search", sqlite3_errmsg(all->base));
    sqlite3_reset(it);
}

void peer_search_many(const pair *windows, size_t count, void (*found)(const pair *)) {
    for (size_t i = 0; i < count; i++) peer_search(&windows[i], found);
}

void peer_write(unsigned writer, const pair *it) {
    run(all[writer].base, "BEGIN IMMEDIATE");
    insert(&all[writer], it);
    run(all[writer].base, "COMMIT");
}

uint64_t peer_bytes(const char *path) {
    return bytes_of(path, "") + bytes_of(path, "-wal");
}
