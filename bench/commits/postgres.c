/* PostgreSQL's GiST over a column of boxes, by libpq with prepared statements. The path is the folder of a server's
   socket. */
#include "commits.h"

#include <libpq-fe.h>

struct client {
    PGconn *base;
};

static void expect(PGconn *base, PGresult *got, ExecStatusType wanted) {
    if (PQresultStatus(got) != wanted) stop("PostgreSQL", PQerrorMessage(base));
    PQclear(got);
}

static void run(PGconn *base, const char *words) {
    expect(base, PQexec(base, words), PGRES_COMMAND_OK);
}

static void prepare(PGconn *base, const char *name, const char *words) {
    expect(base, PQprepare(base, name, words, 0, NULL), PGRES_COMMAND_OK);
}

client *client_open(const char *path, bool is_first) {
    char where[512];
    client *by = malloc(sizeof *by);
    if (!by) stop("memory", "there is none");
    snprintf(where, sizeof where, "host=%s dbname=postgres", path);
    by->base = PQconnectdb(where);
    if (PQstatus(by->base) != CONNECTION_OK) stop("connect", PQerrorMessage(by->base));
    run(by->base, "SET client_min_messages = error");
    if (is_first) {
        run(by->base, "DROP TABLE IF EXISTS boxes");
        run(by->base, "CREATE TABLE boxes (id bigint, b box)");
        run(by->base, "CREATE INDEX boxes_by_box ON boxes USING gist (b)");
    }
    run(by->base, "SET enable_seqscan = off");
    prepare(by->base, "insert", "INSERT INTO boxes VALUES ($1, $2)");
    prepare(by->base, "search", "SELECT id FROM boxes WHERE b && $1");
    return by;
}

void client_close(client *by) {
    PQfinish(by->base);
    free(by);
}

void client_begin(client *by) {
    run(by->base, "BEGIN");
}

void client_search(client *by, long session) {
    char box[64];
    const char *const values[] = {box};
    snprintf(box, sizeof box, "((0,%ld),(1000,%ld))", session * 100, session * 100 + 1);
    expect(by->base, PQexecPrepared(by->base, "search", 1, values, NULL, NULL, 1), PGRES_TUPLES_OK);
}

void client_abort(client *by) {
    run(by->base, "ROLLBACK");
}

void client_transact(client *by, long session, int place, bool searches) {
    char row[24], box[64];
    const char *const values[] = {row, box};
    if (searches) {
        client_begin(by);
        client_search(by, session);
    }
    snprintf(row, sizeof row, "%ld", session * 1000000 + place);
    snprintf(box, sizeof box, "((%d,%ld),(%d,%ld))", place * 100, session * 100, place * 100 + 1, session * 100 + 1);
    expect(by->base, PQexecPrepared(by->base, "insert", 2, values, NULL, NULL, 0), PGRES_COMMAND_OK);
    if (searches) run(by->base, "COMMIT");
}
