/* SQLite's R*Tree: a write-ahead log, full sync, prepared statements. */
#include "commits.h"

#include <sqlite3.h>
#include <unistd.h>

struct client {
    sqlite3 *base;
    sqlite3_stmt *begin, *insert, *search, *commit;
};

static void run(sqlite3 *base, const char *words) {
    if (sqlite3_exec(base, words, NULL, NULL, NULL) != SQLITE_OK) stop(words, sqlite3_errmsg(base));
}

static sqlite3_stmt *prepared(sqlite3 *base, const char *words) {
    sqlite3_stmt *it;
    if (sqlite3_prepare_v2(base, words, -1, &it, NULL) != SQLITE_OK) stop(words, sqlite3_errmsg(base));
    return it;
}

/* Runs a statement to its end. */
static void done(client *by, sqlite3_stmt *it) {
    int said;
    while ((said = sqlite3_step(it)) == SQLITE_ROW) continue;
    if (said != SQLITE_DONE) stop(sqlite3_sql(it), sqlite3_errmsg(by->base));
    sqlite3_reset(it);
}

client *client_open(const char *path, bool is_first) {
    client *by = malloc(sizeof *by);
    if (!by) stop("memory", "there is none");
    if (is_first) unlink(path);
    if (sqlite3_open(path, &by->base) != SQLITE_OK) stop("open", sqlite3_errmsg(by->base));
    sqlite3_busy_timeout(by->base, 60000);
    run(by->base, "PRAGMA journal_mode=WAL");
    run(by->base, "PRAGMA synchronous=FULL");
    if (is_first) run(by->base, "CREATE VIRTUAL TABLE boxes USING rtree_i32(id, x1, x2, y1, y2)");
    by->begin = prepared(by->base, "BEGIN IMMEDIATE");
    by->insert = prepared(by->base, "INSERT INTO boxes VALUES (?, ?, ?, ?, ?)");
    by->search = prepared(by->base, "SELECT id FROM boxes WHERE x2 >= 0 AND x1 <= 1000 AND y2 >= ?1 AND y1 <= ?1 + 1");
    by->commit = prepared(by->base, "COMMIT");
    return by;
}

void client_close(client *by) {
    sqlite3_finalize(by->begin);
    sqlite3_finalize(by->insert);
    sqlite3_finalize(by->search);
    sqlite3_finalize(by->commit);
    sqlite3_close(by->base);
    free(by);
}

void client_begin(client *by) {
    run(by->base, "BEGIN");
}

void client_search(client *by, long session) {
    sqlite3_bind_int64(by->search, 1, session * 100);
    done(by, by->search);
}

void client_abort(client *by) {
    run(by->base, "ROLLBACK");
}

void client_transact(client *by, long session, int place, bool searches) {
    done(by, by->begin);
    if (searches) client_search(by, session);
    sqlite3_bind_int64(by->insert, 1, session * 1000000 + place);
    sqlite3_bind_int(by->insert, 2, place * 100);
    sqlite3_bind_int(by->insert, 3, place * 100 + 1);
    sqlite3_bind_int64(by->insert, 4, session * 100);
    sqlite3_bind_int64(by->insert, 5, session * 100 + 1);
    done(by, by->insert);
    done(by, by->commit);
}
