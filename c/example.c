/* Keeps the parks of a town in an index, and asks which of them a map's window shows. The argument after the program's
 * name is the file, which must not be there. */
#include "gist_client.h"

#include <inttypes.h>
#include <stdio.h>

static const gist_entry PARKS[] = {
    {1, {100, 100, 180, 160}},
    {2, {400, 120, 460, 150}},
    {3, {150, 140, 420, 300}},
};

/* Says what failed, and ends the program. */
static int fail(const char *what, int status, const gist_end *end) {
    fprintf(stderr, "%s: %s%s%s\n", what, gist_strerror(status), end && end->sentence[0] ? ": " : "",
            end ? end->sentence : "");
    return 1;
}

/* Writes all parks in one transaction. */
static int load(gist_index *index) {
    size_t done;
    uint64_t number;
    int status = gist_begin(index, 1);
    if (status == GIST_OK) status = gist_insert_many(index, 1, PARKS, sizeof PARKS / sizeof *PARKS, &done);
    if (status == GIST_OK) status = gist_commit(index, 1, &number);
    if (status == GIST_OK) printf("committed %" PRIu64 "\n", number);
    return status;
}

/* Prints the parks that a window shows. The transaction only searches, so it is given up: that costs no sync. */
static int show(gist_index *index, gist_box window) {
    const gist_entry *found;
    size_t count;
    int status = gist_begin(index, 2);
    if (status == GIST_OK) status = gist_search(index, 2, GIST_OVERLAP, window, &found, &count);
    for (size_t i = 0; status == GIST_OK && i < count; i++)
        printf("park %" PRIu64 " from (%" PRId32 ", %" PRId32 ") to (%" PRId32 ", %" PRId32 ")\n", found[i].row,
               found[i].box.x1, found[i].box.y1, found[i].box.x2, found[i].box.y2);
    if (status == GIST_OK) status = gist_abort(index, 2);
    return status;
}

int main(int count, char **words) {
    const char *path = count > 1 ? words[1] : "parks.gist";
    gist_index *index;
    gist_end end;
    int status = gist_format(NULL, path, 64, 100, 0, &end);
    if (status != GIST_OK) return fail("format", status, &end);
    status = gist_open(&index, NULL, path, 64, &end);
    if (status != GIST_OK) return fail("open", status, &end);
    status = load(index);
    if (status == GIST_OK) status = show(index, (gist_box){120, 120, 200, 200});
    if (status != GIST_OK) fail("a call", status, NULL);
    int closed = gist_close(index, &end);
    return closed != GIST_OK ? fail("close", closed, &end) : status != GIST_OK;
}
