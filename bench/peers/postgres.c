/* PostgreSQL's GiST over a column of boxes, by libpq: prepared statements, and the entries of a batch sent in one
   pipeline. The path is the folder of a server's socket. */
#include "peers.h"

#include <libpq-fe.h>
#include <stdio.h>
#include <stdlib.h>

enum { WRITERS = 4 };

/* the first one does all but what the writers do */
static PGconn *all[WRITERS];

static void expect(PGconn *by, PGresult *got, ExecStatusType wanted) {
    if (PQresultStatus(got) != wanted) stop("PostgreSQL", PQerrorMessage(by));
    PQclear(got);
}

static void run(PGconn *by, const char *words) {
    expect(by, PQexec(by, words), PGRES_COMMAND_OK);
}

static void prepare(PGconn *by, const char *name, const char *words) {
    expect(by, PQprepare(by, name, words, 0, NULL), PGRES_COMMAND_OK);
}

unsigned peer_writers(void) {
    return WRITERS;
}

void peer_open(const char *path, size_t entries, bool is_new) {
    char where[512];
    (void)entries;
    snprintf(where, sizeof where, "host=%s dbname=postgres", path);
    for (PGconn **it = all; it < all + WRITERS; it++) {
        *it = PQconnectdb(where);
        if (PQstatus(*it) != CONNECTION_OK) stop("connect", PQerrorMessage(*it));
        run(*it, "SET client_min_messages = error");
        if (is_new && it == all) {
            run(*it, "DROP TABLE IF EXISTS boxes");
            run(*it, "CREATE TABLE boxes (id bigint, b box)");
            run(*it, "CREATE INDEX boxes_by_box ON boxes USING gist (b)");
        }
        prepare(*it, "insert", "INSERT INTO boxes VALUES ($1, $2)");
    }
    /* an entry is found by its box, as in the others: there is no second index */
    prepare(*all, "delete", "DELETE FROM boxes WHERE b ~= $2 AND id = $1");
    prepare(*all, "overlap",
            "SELECT id, (b[1])[0]::int4, (b[1])[1]::int4, (b[0])[0]::int4, (b[0])[1]::int4 FROM boxes WHERE b && $1");
    run(*all, "SET enable_seqscan = off");
}

void peer_close(void) {
    for (PGconn **it = all; it < all + WRITERS; it++) PQfinish(*it);
}

void peer_begin(void) {
    run(*all, "BEGIN");
}

void peer_commit(void) {
    run(*all, "COMMIT");
}

void peer_abort(void) {
    run(*all, "ROLLBACK");
}

typedef struct words {
    char row[24], box[64];
} words;

static void write_words(words *to, const pair *it) {
    snprintf(to->row, sizeof to->row, "%llu", (unsigned long long)it->row);
    snprintf(to->box, sizeof to->box, "((%d,%d),(%d,%d))", it->x1, it->y1, it->x2, it->y2);
}

/* Has a statement done for each entry, all of them in one pipeline. */
static void do_all(const char *name, const pair *pairs, size_t count) {
    words given;
    const char *const values[] = {given.row, given.box};
    if (!PQenterPipelineMode(*all)) stop("pipeline", PQerrorMessage(*all));
    for (size_t i = 0; i < count; i++) {
        write_words(&given, &pairs[i]);
        if (!PQsendQueryPrepared(*all, name, 2, values, NULL, NULL, 0)) stop(name, PQerrorMessage(*all));
    }
    if (!PQpipelineSync(*all)) stop("pipeline", PQerrorMessage(*all));
    for (size_t i = 0; i < count; i++) {
        PGresult *got = PQgetResult(*all);
        if (PQresultStatus(got) != PGRES_COMMAND_OK || atoi(PQcmdTuples(got)) != 1) stop(name, PQerrorMessage(*all));
        PQclear(got);
        PQclear(PQgetResult(*all));
    }
    expect(*all, PQgetResult(*all), PGRES_PIPELINE_SYNC);
    if (!PQexitPipelineMode(*all)) stop("pipeline", PQerrorMessage(*all));
}

void peer_insert(const pair *pairs, size_t count) {
    do_all("insert", pairs, count);
}

void peer_delete(const pair *pairs, size_t count) {
    do_all("delete", pairs, count);
}

static uint64_t number(const PGresult *got, int row, int column, int bytes) {
    const unsigned char *at = (const unsigned char *)PQgetvalue(got, row, column);
    uint64_t value = 0;
    for (int i = 0; i < bytes; i++) value = value << 8 | at[i];
    return value;
}

/* Hands on what a search found, and frees it. */
static void hand(PGresult *got, void (*found)(const pair *)) {
    if (PQresultStatus(got) != PGRES_TUPLES_OK) stop("overlap", PQerrorMessage(*all));
    for (int i = 0; i < PQntuples(got); i++)
        found(&(pair){number(got, i, 0, 8), (int32_t)number(got, i, 1, 4), (int32_t)number(got, i, 2, 4),
                      (int32_t)number(got, i, 3, 4), (int32_t)number(got, i, 4, 4)});
    PQclear(got);
}

void peer_search(const pair *window, void (*found)(const pair *)) {
    words given;
    const char *const values[] = {given.box};
    write_words(&given, window);
    hand(PQexecPrepared(*all, "overlap", 1, values, NULL, NULL, 1), found);
}

/* (all of them in one pipeline) */
void peer_search_many(const pair *windows, size_t count, void (*found)(const pair *)) {
    words given;
    const char *const values[] = {given.box};
    if (!PQenterPipelineMode(*all)) stop("pipeline", PQerrorMessage(*all));
    for (size_t i = 0; i < count; i++) {
        write_words(&given, &windows[i]);
        if (!PQsendQueryPrepared(*all, "overlap", 1, values, NULL, NULL, 1)) stop("overlap", PQerrorMessage(*all));
    }
    if (!PQpipelineSync(*all)) stop("pipeline", PQerrorMessage(*all));
    for (size_t i = 0; i < count; i++) {
        hand(PQgetResult(*all), found);
        PQclear(PQgetResult(*all));
    }
    expect(*all, PQgetResult(*all), PGRES_PIPELINE_SYNC);
    if (!PQexitPipelineMode(*all)) stop("pipeline", PQerrorMessage(*all));
}

void peer_write(unsigned writer, const pair *it) {
    words given;
    const char *const values[] = {given.row, given.box};
    write_words(&given, it);
    expect(all[writer], PQexecPrepared(all[writer], "insert", 2, values, NULL, NULL, 0), PGRES_COMMAND_OK);
}

uint64_t peer_bytes(const char *path) {
    (void)path;
    PGresult *got = PQexec(*all, "SELECT pg_total_relation_size('boxes')");
    uint64_t bytes = PQntuples(got) == 1 ? strtoull(PQgetvalue(got, 0, 0), NULL, 10) : 0;
    PQclear(got);
    return bytes;
}
