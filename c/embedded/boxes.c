/* The calls of an open index in process that have boxes; gist_client.h says what each does. What the plane and space
   have in common is done for a shape. */
#define _GNU_SOURCE /* reallocarray */
#include "index.h"

#include <stdlib.h>
#include <string.h>

typedef uint16_t write_call(gist_c_handle *handle, uint8_t session, uint64_t row, const void *box);
typedef uint16_t search_call(gist_c_handle *handle, uint8_t session, uint8_t kind, const void *box, void *out,
                             size_t places, gist_c_count *count);
typedef uint16_t more_call(gist_c_handle *handle, uint8_t session, void *out, size_t places, gist_c_count *count);

/* How boxes and entries lie in memory: an entry is its row and then its box. */
typedef struct shape {
    unsigned dimensions;
    size_t box, entry;
    write_call *insert, *delete;
    search_call *search;
    more_call *more;
} shape;

/* What one search found, of either shape. */
typedef struct hits {
    const void *found;
    size_t count;
} hits;

enum { ROW = sizeof(uint64_t), FIRST_ROOM = 64 };

_Static_assert(sizeof(gist_entry) == ROW + sizeof(gist_box) && offsetof(gist_entry, box) == ROW, "entries");
_Static_assert(sizeof(gist_entry3) == ROW + sizeof(gist_box3) && offsetof(gist_entry3, box) == ROW, "entries of space");
_Static_assert(sizeof(hits) == sizeof(gist_hits) && offsetof(hits, count) == offsetof(gist_hits, count), "hits");
_Static_assert(sizeof(hits) == sizeof(gist_hits3) && offsetof(hits, count) == offsetof(gist_hits3, count), "hits");

static uint16_t insert2(gist_c_handle *handle, uint8_t session, uint64_t row, const void *box) {
    return gx_c_insert(handle, session, row, box);
}

static uint16_t delete2(gist_c_handle *handle, uint8_t session, uint64_t row, const void *box) {
    return gx_c_delete(handle, session, row, box);
}

static uint16_t search2(gist_c_handle *handle, uint8_t session, uint8_t kind, const void *box, void *out, size_t places,
                        gist_c_count *count) {
    return gx_c_search(handle, session, kind, box, out, places, count);
}

static uint16_t more2(gist_c_handle *handle, uint8_t session, void *out, size_t places, gist_c_count *count) {
    return gx_c_more(handle, session, out, places, count);
}

static uint16_t insert3(gist_c_handle *handle, uint8_t session, uint64_t row, const void *box) {
    return gx_c_insert3(handle, session, row, box);
}

static uint16_t delete3(gist_c_handle *handle, uint8_t session, uint64_t row, const void *box) {
    return gx_c_delete3(handle, session, row, box);
}

static uint16_t search3(gist_c_handle *handle, uint8_t session, uint8_t kind, const void *box, void *out, size_t places,
                        gist_c_count *count) {
    return gx_c_search3(handle, session, kind, box, out, places, count);
}

static uint16_t more3(gist_c_handle *handle, uint8_t session, void *out, size_t places, gist_c_count *count) {
    return gx_c_more3(handle, session, out, places, count);
}

static const shape PLANE = {2, sizeof(gist_box), sizeof(gist_entry), insert2, delete2, search2, more2};
static const shape SPACE = {3, sizeof(gist_box3), sizeof(gist_entry3), insert3, delete3, search3, more3};

/* Takes an index whose boxes are of this shape. */
static int enter(gist_index *index, const shape *of) {
    int told = gist_index_enter(index);
    if (told != GIST_OK || index->dimensions == of->dimensions) return told;
    gist_index_release(index);
    return GIST_BAD_PARAMETER;
}

/* Makes writes, each whole, until one is refused. */
static int write_all(gist_index *index, const shape *of, write_call *call, unsigned session, const void *entries,
                     size_t count, size_t *done) {
    size_t at = 0;
    int told = GIST_OK;
    if (done) *done = 0;
    if (count && !entries) return gist_index_invalid();
    for (; told == GIST_OK && at < count; at++) {
        const char *entry = (const char *)entries + at * of->entry;
        uint64_t row;
        memcpy(&row, entry, ROW);
        told = enter(index, of);
        if (told == GIST_OK)
            told = gist_index_leave(index, call(&index->handle, gist_index_session(session), row, entry + ROW));
    }
    if (count == 0 && (told = enter(index, of)) == GIST_OK) gist_index_release(index);
    if (done) *done = told == GIST_OK ? at : at ? at - 1 : 0;
    return told;
}

/* Makes a room as large as so many entries, or twice as large as it was. */
static bool grow(gist_room *room, size_t entries, size_t size) {
    size_t has = room->bytes / size;
    if (room->entries && has >= entries) return true;
    if (entries < 2 * has) entries = 2 * has;
    void *made = reallocarray(room->entries, entries, size);
    if (!made) return false;
    *room = (gist_room){made, entries * size};
    return true;
}

/* A room that has at least so many places behind those that are taken: the first of them, and how many there are. */
static char *places_in(gist_room *room, const shape *of, size_t taken, size_t wanted, size_t *places) {
    if (!grow(room, taken + wanted, of->entry)) return NULL;
    *places = room->bytes / of->entry - taken;
    return (char *)room->entries + taken * of->entry;
}

/* Searches, and reads all that was found into a room, behind the entries that are there. The index is the caller's. */
static int search_into(gist_index *index, const shape *of, gist_room *room, size_t taken, unsigned session,
                       enum gist_query query, const void *box, size_t *count) {
    gist_c_count told = {0, 0};
    size_t places;
    uint8_t its = gist_index_session(session);
    char *out = places_in(room, of, taken, FIRST_ROOM, &places);
    if (!out) return GIST_MEMORY;
    unsigned status = of->search(&index->handle, its, (uint8_t)query, box, out, places, &told);
    int ended = gist_index_finish(index, status);
    if (ended != GIST_OK) return ended;
    *count = told.found;
    size_t left = told.found - told.told;
    if (left == 0) return GIST_OK;
    out = places_in(room, of, taken + told.told, left, &places);
    return out ? (int)of->more(&index->handle, its, out, left, &told) : GIST_MEMORY;
}

/* The room of a session. */
static gist_room *room_of(gist_index *index, unsigned session) {
    return &index->found[session <= GIST_SESSIONS ? session : 0];
}

static int search(gist_index *index, const shape *of, unsigned session, enum gist_query query, const void *box,
                  const void **found, size_t *count) {
    if (!count) return gist_index_invalid();
    *count = 0;
    if ((unsigned)query > GIST_COVERS) return gist_index_invalid();
    int told = enter(index, of);
    if (told != GIST_OK) return told;
    gist_room *room = room_of(index, session);
    size_t many = 0;
    told = search_into(index, of, room, 0, session, query, box, &many);
    if (told == GIST_OK) {
        *found = room->entries;
        *count = many;
    }
    gist_index_release(index);
    return told;
}

/* What one of the caller's hits has; and sets it. (the caller's are of either type, so they are read and written whole) */
static hits hits_at(const void *all, size_t place) {
    hits it;
    memcpy(&it, (const char *)all + place * sizeof it, sizeof it);
    return it;
}

static void set_hits(void *all, size_t place, const void *found, size_t count) {
    hits it = {found, count};
    memcpy((char *)all + place * sizeof it, &it, sizeof it);
}

/* Makes searches one after another into one room, and says where each one's entries are once the room stays. */
static int search_all(gist_index *index, const shape *of, unsigned session, enum gist_query query, const void *boxes,
                      size_t count, void *all, size_t *done) {
    size_t taken = 0, many = 0, i = 0;
    if (done) *done = 0;
    if ((count && (!boxes || !all)) || (unsigned)query > GIST_COVERS) return gist_index_invalid();
    int told = enter(index, of);
    if (told != GIST_OK) return told;
    gist_room *room = room_of(index, session);
    for (; i < count; i++, taken += many) {
        const char *box = (const char *)boxes + i * of->box;
        told = search_into(index, of, room, taken, session, query, box, &many);
        if (told != GIST_OK) break;
        set_hits(all, i, NULL, many);
    }
    const char *found = room->entries;
    for (size_t j = 0; j < i; j++) {
        many = hits_at(all, j).count;
        set_hits(all, j, found, many);
        found += many * of->entry;
    }
    gist_index_release(index);
    if (done) *done = i;
    return told;
}

int gist_insert(gist_index *index, unsigned session, uint64_t row, gist_box box) {
    gist_entry entry = {row, box};
    return write_all(index, &PLANE, PLANE.insert, session, &entry, 1, NULL);
}

int gist_insert3(gist_index *index, unsigned session, uint64_t row, gist_box3 box) {
    gist_entry3 entry = {row, box};
    return write_all(index, &SPACE, SPACE.insert, session, &entry, 1, NULL);
}

int gist_delete(gist_index *index, unsigned session, uint64_t row, gist_box box) {
    gist_entry entry = {row, box};
    return write_all(index, &PLANE, PLANE.delete, session, &entry, 1, NULL);
}

int gist_delete3(gist_index *index, unsigned session, uint64_t row, gist_box3 box) {
    gist_entry3 entry = {row, box};
    return write_all(index, &SPACE, SPACE.delete, session, &entry, 1, NULL);
}

int gist_insert_many(gist_index *index, unsigned session, const gist_entry *entries, size_t count, size_t *done) {
    return write_all(index, &PLANE, PLANE.insert, session, entries, count, done);
}

int gist_insert_many3(gist_index *index, unsigned session, const gist_entry3 *entries, size_t count, size_t *done) {
    return write_all(index, &SPACE, SPACE.insert, session, entries, count, done);
}

int gist_delete_many(gist_index *index, unsigned session, const gist_entry *entries, size_t count, size_t *done) {
    return write_all(index, &PLANE, PLANE.delete, session, entries, count, done);
}

int gist_delete_many3(gist_index *index, unsigned session, const gist_entry3 *entries, size_t count, size_t *done) {
    return write_all(index, &SPACE, SPACE.delete, session, entries, count, done);
}

int gist_search(gist_index *index, unsigned session, enum gist_query query, gist_box box, const gist_entry **found,
                size_t *count) {
    const void *at = NULL;
    if (!found) return gist_index_invalid();
    int told = search(index, &PLANE, session, query, &box, &at, count);
    *found = at;
    return told;
}

int gist_search3(gist_index *index, unsigned session, enum gist_query query, gist_box3 box, const gist_entry3 **found,
                 size_t *count) {
    const void *at = NULL;
    if (!found) return gist_index_invalid();
    int told = search(index, &SPACE, session, query, &box, &at, count);
    *found = at;
    return told;
}

int gist_search_many(gist_index *index, unsigned session, enum gist_query query, const gist_box *boxes, size_t count,
                     gist_hits *all, size_t *done) {
    return search_all(index, &PLANE, session, query, boxes, count, all, done);
}

int gist_search_many3(gist_index *index, unsigned session, enum gist_query query, const gist_box3 *boxes, size_t count,
                      gist_hits3 *all, size_t *done) {
    return search_all(index, &SPACE, session, query, boxes, count, all, done);
}
