/* The calls of an open index that have boxes, those of the plane and those of space; gist_client.h says what each does.
   What both have in common is done for a shape. */
#define _GNU_SOURCE /* reallocarray */
#include "gist_digits.h"
#include "gist_index.h"

#include <stdbool.h>
#include <stdlib.h>
#include <string.h>

/* How boxes and entries lie in memory: a box is its numbers, and an entry its row and then its box. */
typedef struct shape {
    unsigned dimensions;
    size_t corners, box, entry;
} shape;

static const shape PLANE = {2, 4, sizeof(gist_box), sizeof(gist_entry)};
static const shape SPACE = {3, 6, sizeof(gist_box3), sizeof(gist_entry3)};

/* What one search found, of either shape. */
typedef struct hits {
    const void *found;
    size_t count;
} hits;

enum { MOST_CORNERS = 6, ROW = sizeof(uint64_t) };

_Static_assert(sizeof(gist_box) == 4 * sizeof(int32_t) && sizeof(gist_box3) == 6 * sizeof(int32_t), "boxes");
_Static_assert(offsetof(gist_entry, box) == ROW && offsetof(gist_entry3, box) == ROW, "entries");
_Static_assert(sizeof(hits) == sizeof(gist_hits) && offsetof(hits, count) == offsetof(gist_hits, count), "hits");
_Static_assert(sizeof(hits) == sizeof(gist_hits3) && offsetof(hits, count) == offsetof(gist_hits3, count), "hits");

/* GIST_OK if this process may use the index, and its boxes are of this shape. */
static int takes(const gist_index *index, const shape *of) {
    int told = gist_index_usable(index);
    return told == GIST_OK && index->dimensions != of->dimensions ? GIST_BAD_PARAMETER : told;
}

/* Writes the words with which a line begins, and returns the place after them. */
static char *print_words(char *line, unsigned session, const char *command) {
    line = gist_write_text(gist_write_number(line, session), " ");
    return gist_write_text(line, command);
}

/* Writes a box, ends the line, and returns the place after it. */
static char *print_box(char *line, const shape *of, const char *box) {
    int32_t corners[MOST_CORNERS];
    memcpy(corners, box, of->box);
    for (size_t i = 0; i < of->corners; i++) {
        *line++ = ' ';
        line = gist_write_corner(line, corners[i]);
    }
    *line = '\n';
    return line + 1;
}

/* Writes the lines that make these calls. Returns their length. */
static size_t print_calls(char *lines, const shape *of, unsigned session, const char *command, const char *entries,
                          size_t calls) {
    char *line = lines;
    for (const char *it = entries; it < entries + calls * of->entry; it += of->entry) {
        uint64_t row;
        memcpy(&row, it, ROW);
        line = gist_write_text(print_words(line, session, command), " ");
        line = print_box(gist_write_number(line, row), of, it + ROW);
    }
    return (size_t)(line - lines);
}

static int write_many(gist_index *index, const shape *of, unsigned session, const char *command, const char *expected,
                      const void *entries, size_t count, size_t *done) {
    char lines[GIST_AHEAD * GIST_LINE];
    size_t place = 0;
    int told = takes(index, of);
    if (told == GIST_OK && count > 0 && !entries) told = gist_run_invalid();
    while (told == GIST_OK && place < count) {
        size_t calls = count - place < GIST_AHEAD ? count - place : GIST_AHEAD;
        size_t length = print_calls(lines, of, session, command, (const char *)entries + place * of->entry, calls);
        told = gist_index_exchange(index, lines, length, calls);
        for (const char *line = index->bytes; told == GIST_OK && calls > 0; calls--) {
            told = gist_index_answer(index, session, line, expected, &line);
            place += told == GIST_OK;
        }
    }
    if (done) *done = place;
    return told;
}

static int insert_many(gist_index *index, const shape *of, unsigned session, const void *entries, size_t count,
                       size_t *done) {
    return write_many(index, of, session, "INSERT", "inserted\n", entries, count, done);
}

static int delete_many(gist_index *index, const shape *of, unsigned session, const void *entries, size_t count,
                       size_t *done) {
    return write_many(index, of, session, "DELETE", "deleted\n", entries, count, done);
}

int gist_insert(gist_index *index, unsigned session, uint64_t row, gist_box box) {
    return insert_many(index, &PLANE, session, &(gist_entry){row, box}, 1, NULL);
}

int gist_insert3(gist_index *index, unsigned session, uint64_t row, gist_box3 box) {
    return insert_many(index, &SPACE, session, &(gist_entry3){row, box}, 1, NULL);
}

int gist_delete(gist_index *index, unsigned session, uint64_t row, gist_box box) {
    return delete_many(index, &PLANE, session, &(gist_entry){row, box}, 1, NULL);
}

int gist_delete3(gist_index *index, unsigned session, uint64_t row, gist_box3 box) {
    return delete_many(index, &SPACE, session, &(gist_entry3){row, box}, 1, NULL);
}

int gist_insert_many(gist_index *index, unsigned session, const gist_entry *entries, size_t count, size_t *done) {
    return insert_many(index, &PLANE, session, entries, count, done);
}

int gist_insert_many3(gist_index *index, unsigned session, const gist_entry3 *entries, size_t count, size_t *done) {
    return insert_many(index, &SPACE, session, entries, count, done);
}

int gist_delete_many(gist_index *index, unsigned session, const gist_entry *entries, size_t count, size_t *done) {
    return delete_many(index, &PLANE, session, entries, count, done);
}

int gist_delete_many3(gist_index *index, unsigned session, const gist_entry3 *entries, size_t count, size_t *done) {
    return delete_many(index, &SPACE, session, entries, count, done);
}

/* Reads a line `S entry R` with a box after it. Returns what follows it, or NULL if it is no such line. */
static const char *read_entry(const char *line, const shape *of, unsigned session, char *entry) {
    int32_t corners[MOST_CORNERS];
    uint64_t its, row;
    if (!(line = gist_read_number(line, &its)) || its != session) return NULL;
    if (!(line = gist_read_text(line, " entry ")) || !(line = gist_read_number(line, &row))) return NULL;
    for (size_t i = 0; i < of->corners; i++)
        if (*line != ' ' || !(line = gist_read_corner(line + 1, &corners[i]))) return NULL;
    memcpy(entry, &row, ROW);
    memcpy(entry + ROW, corners, of->box);
    return *line == '\n' ? line + 1 : NULL;
}

/* Makes room for so many entries that were found. */
static bool hold(gist_index *index, const shape *of, size_t count) {
    size_t places = index->held / of->entry;
    if (count <= places) return true;
    if (count / 2 < places) count = 2 * places;
    void *room = reallocarray(index->found, count, of->entry);
    if (!room) return false;
    index->found = room;
    index->held = count * of->entry;
    return true;
}

/* Reads the answer of a search that begins at `*line`, and puts its entries after so many that were found. */
static int read_found(gist_index *index, const shape *of, unsigned session, const char **line, size_t before,
                      size_t *count) {
    uint64_t entries;
    int told = gist_index_answer(index, session, *line, "found ", line);
    if (told != GIST_OK) return told;
    if (!(*line = gist_index_last_number(*line, &entries))) return gist_index_senseless(index);
    if (!hold(index, of, before + (size_t)entries)) return GIST_SYSTEM;
    char *entry = (char *)index->found + before * of->entry;
    for (size_t i = 0; i < entries; i++, entry += of->entry)
        if (!(*line = read_entry(*line, of, session, entry))) return gist_index_senseless(index);
    *count = (size_t)entries;
    return GIST_OK;
}

/* Writes the lines that make these searches. Returns their length. */
static size_t print_searches(char *lines, const shape *of, unsigned session, const char *query, const char *boxes,
                             size_t calls) {
    char *line = lines;
    for (const char *it = boxes; it < boxes + calls * of->box; it += of->box)
        line = print_box(print_words(line, session, query), of, it);
    return (size_t)(line - lines);
}

/* Says where the entries lie that searches found, one search's after the other's. */
static void place_hits(const gist_index *index, const shape *of, void *all, size_t searches) {
    const char *found = index ? index->found : NULL;
    for (char *at = all; searches > 0; searches--, at += sizeof(hits)) {
        hits it;
        memcpy(&it, at, sizeof it);
        it.found = found;
        memcpy(at, &it, sizeof it);
        if (found) found += it.count * of->entry;
    }
}

static int search_many(gist_index *index, const shape *of, unsigned session, enum gist_query query, const void *boxes,
                       size_t count, void *all, size_t *done) {
    static const char *const NAMES[] = {"OVERLAP", "WITHIN", "EQUAL", "COVERS"};
    char lines[GIST_SEARCHES * GIST_LINE];
    size_t place = 0, total = 0;
    int told = takes(index, of);
    if ((unsigned)query >= sizeof NAMES / sizeof *NAMES || (count > 0 && (!boxes || !all))) told = gist_run_invalid();
    while (told == GIST_OK && place < count) {
        size_t calls = count - place < GIST_SEARCHES ? count - place : GIST_SEARCHES;
        size_t length =
            print_searches(lines, of, session, NAMES[query], (const char *)boxes + place * of->box, calls);
        told = gist_index_exchange(index, lines, length, calls);
        const char *line = index->bytes;
        for (; told == GIST_OK && calls > 0; calls--) {
            hits it = {0};
            told = read_found(index, of, session, &line, total, &it.count);
            if (told != GIST_OK) break;
            memcpy((char *)all + place++ * sizeof it, &it, sizeof it);
            total += it.count;
        }
    }
    place_hits(index, of, all, place);
    if (done) *done = place;
    return told;
}

int gist_search_many(gist_index *index, unsigned session, enum gist_query query, const gist_box *boxes, size_t count,
                     gist_hits *all, size_t *done) {
    return search_many(index, &PLANE, session, query, boxes, count, all, done);
}

int gist_search_many3(gist_index *index, unsigned session, enum gist_query query, const gist_box3 *boxes, size_t count,
                      gist_hits3 *all, size_t *done) {
    return search_many(index, &SPACE, session, query, boxes, count, all, done);
}

int gist_search(gist_index *index, unsigned session, enum gist_query query, gist_box box, const gist_entry **found,
                size_t *count) {
    gist_hits all = {0};
    if (!found || !count) return gist_run_invalid();
    int told = gist_search_many(index, session, query, &box, 1, &all, NULL);
    *found = told == GIST_OK ? all.found : NULL;
    *count = told == GIST_OK ? all.count : 0;
    return told;
}

int gist_search3(gist_index *index, unsigned session, enum gist_query query, gist_box3 box, const gist_entry3 **found,
                 size_t *count) {
    gist_hits3 all = {0};
    if (!found || !count) return gist_run_invalid();
    int told = gist_search_many3(index, session, query, &box, 1, &all, NULL);
    *found = told == GIST_OK ? all.found : NULL;
    *count = told == GIST_OK ? all.count : 0;
    return told;
}
