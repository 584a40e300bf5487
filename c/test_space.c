/* Tests of boxes of space, and of calls with boxes of the wrong kind. */
#define _GNU_SOURCE
#include "test.h"

#include <fcntl.h>
#include <stdlib.h>
#include <string.h>
#include <unistd.h>

static const gist_box3 ALL = {INT32_MIN, INT32_MIN, INT32_MIN, INT32_MAX, INT32_MAX, INT32_MAX};

static gist_entry3 entry3_of(uint64_t row) {
    int32_t at = (int32_t)row * 10;
    return (gist_entry3){row, {at, -at, -(int32_t)row, at + 5, 5 - at, (int32_t)row}};
}

static bool is_entry3(const gist_entry3 *it, uint64_t row) {
    gist_entry3 wanted = entry3_of(row);
    return it->row == row && memcmp(&it->box, &wanted.box, sizeof wanted.box) == 0;
}

static gist_index *fresh3(const char *path, unsigned pages, unsigned fanout) {
    HOLDS(gist_format(NULL, path, pages, fanout, GIST_OVERWRITE | GIST_SPACE, NULL) == GIST_OK);
    gist_index *index = opened(path);
    HOLDS(gist_dimensions(index) == 3);
    return index;
}

void space(void) {
    gist_index *index = fresh3("space", 64, 16);
    const gist_entry3 *found;
    gist_stats stats;
    size_t count;
    uint64_t number = 0;
    HOLDS(gist_begin(index, 1) == GIST_OK);
    HOLDS(gist_insert3(index, 1, 7, (gist_box3){0, 0, 0, 2, 2, 2}) == GIST_OK);
    HOLDS(gist_insert3(index, 1, UINT64_MAX, ALL) == GIST_OK);
    HOLDS(gist_insert3(index, 1, 7, (gist_box3){0, 0, 0, 2, 2, 2}) == GIST_PRESENT);
    HOLDS(gist_insert3(index, 1, 8, (gist_box3){0, 0, 1, 2, 2, 0}) == GIST_BAD_BOX);
    HOLDS(gist_delete3(index, 1, 7, (gist_box3){0, 0, 0, 2, 2, 3}) == GIST_ABSENT);
    HOLDS(gist_commit(index, 1, &number) == GIST_OK && number == 1 && gist_begin(index, 1) == GIST_OK);
    HOLDS(gist_search3(index, 1, GIST_COVERS, (gist_box3){1, 1, 1, 2, 2, 2}, &found, &count) == GIST_OK && count == 2);
    HOLDS(found[0].row == 7 && found[0].box.z1 == 0 && found[0].box.z2 == 2);
    HOLDS(found[1].row == UINT64_MAX && memcmp(&found[1].box, &ALL, sizeof ALL) == 0);
    HOLDS(gist_search3(index, 1, GIST_COVERS, (gist_box3){1, 1, 1, 2, 2, 3}, &found, &count) == GIST_OK && count == 1);
    HOLDS(gist_search3(index, 1, GIST_OVERLAP, (gist_box3){2, 2, 2, 9, 9, 9}, &found, &count) == GIST_OK && count == 2);
    HOLDS(gist_search3(index, 1, GIST_OVERLAP, (gist_box3){2, 2, 3, 9, 9, 9}, &found, &count) == GIST_OK && count == 1);
    HOLDS(gist_search3(index, 1, GIST_WITHIN, (gist_box3){0, 0, 0, 2, 2, 9}, &found, &count) == GIST_OK && count == 1);
    HOLDS(gist_search3(index, 1, GIST_EQUAL, ALL, &found, &count) == GIST_OK && count == 1);
    HOLDS(gist_delete3(index, 1, UINT64_MAX, ALL) == GIST_OK);
    HOLDS(gist_search3(index, 1, GIST_EQUAL, ALL, &found, &count) == GIST_OK && count == 0);
    HOLDS(gist_abort(index, 1) == GIST_OK && gist_close(index, NULL) == GIST_OK);
    HOLDS(gist_stat(NULL, "space", &stats, NULL) == GIST_OK && stats.key_class == 3 && stats.counts.entries == 2);
#ifndef GIST_EMBEDDED
    char *text = NULL;
    size_t length;
    FILE *tree = open_memstream(&text, &length);
    HOLDS(gist_dump(NULL, "space", tree, NULL) == GIST_OK && fclose(tree) == 0);
    HOLDS(strstr(text, "\nentry 7 0 0 0 2 2 2 live\n"));
    free(text);
#endif
}

void space_many(void) {
    static gist_entry3 entries[1500];
    gist_box3 boxes[100];
    gist_hits3 hits[100];
    gist_index *index = fresh3("space_many", 512, 16);
    size_t done, right = 0;
    for (uint64_t row = 0; row < 1500; row++) entries[row] = entry3_of(row);
    for (size_t from = 0; from < 1500; from += 500) {
        HOLDS(gist_begin(index, 8) == GIST_OK);
        HOLDS(gist_insert_many3(index, 8, entries + from, 500, &done) == GIST_OK && done == 500);
        HOLDS(gist_commit(index, 8, NULL) == GIST_OK);
    }
    for (size_t i = 0; i < 100; i++) boxes[i] = i % 10 == 9 ? ALL : entries[i % 10].box;
    HOLDS(gist_begin(index, 1) == GIST_OK);
    HOLDS(gist_search_many3(index, 1, GIST_OVERLAP, boxes, 100, hits, &done) == GIST_OK && done == 100);
    for (size_t i = 0; i < 100; i++) {
        size_t from = i % 10 == 9 ? 0 : i % 10, wanted = i % 10 == 9 ? 1500 : 1, place = 0;
        while (place < hits[i].count && is_entry3(&hits[i].found[place], from + place)) place++;
        right += place == wanted && hits[i].count == wanted;
    }
    HOLDS(right == 100);
    boxes[5].z2 = -1000;
    HOLDS(gist_search_many3(index, 1, GIST_EQUAL, boxes, 100, hits, &done) == GIST_BAD_BOX && done == 5);
    HOLDS(hits[4].count == 1 && is_entry3(hits[4].found, 4));
    HOLDS(gist_delete_many3(index, 1, entries + 1000, 400, &done) == GIST_OK && done == 400);
    HOLDS(gist_delete_many3(index, 1, entries + 999, 2, &done) == GIST_ABSENT && done == 1);
    HOLDS(gist_commit(index, 1, NULL) == GIST_OK && gist_close(index, NULL) == GIST_OK);
    gist_counts counts;
    HOLDS(gist_verify(NULL, "space_many", &counts, NULL) == GIST_OK && counts.entries == 1099);
}

/* Calls of the wrong kind ask nothing, and leave the transaction unchanged. */
void wrong_boxes(void) {
    gist_index *index = fresh("plane", 16, 4);
    const gist_entry *found;
    const gist_entry3 *found3;
    size_t count = 1, done = 1;
    gist_entry it = entry_of(7);
    gist_entry3 it3 = entry3_of(7);
    HOLDS(gist_dimensions(index) == 2 && gist_dimensions(NULL) == 0 && gist_begin(index, 1) == GIST_OK);
    HOLDS(gist_insert3(index, 1, 7, it3.box) == GIST_BAD_PARAMETER);
    HOLDS(gist_insert_many3(index, 1, &it3, 1, &done) == GIST_BAD_PARAMETER && done == 0);
    HOLDS(gist_delete3(index, 1, 7, it3.box) == GIST_BAD_PARAMETER);
    HOLDS(gist_search3(index, 1, GIST_OVERLAP, it3.box, &found3, &count) == GIST_BAD_PARAMETER && !found3 && count == 0);
    HOLDS(gist_insert(index, 1, 7, it.box) == GIST_OK && gist_commit(index, 1, NULL) == GIST_OK);
    HOLDS(gist_close(index, NULL) == GIST_OK);
    index = fresh3("deep", 16, 4);
    HOLDS(gist_begin(index, 1) == GIST_OK && gist_insert3(index, 1, 7, it3.box) == GIST_OK);
    HOLDS(gist_insert(index, 1, 7, it.box) == GIST_BAD_PARAMETER);
    HOLDS(gist_delete_many(index, 1, &it, 1, &done) == GIST_BAD_PARAMETER && done == 0);
    HOLDS(gist_search(index, 1, GIST_OVERLAP, PLANE, &found, &count) == GIST_BAD_PARAMETER && !found && count == 0);
    HOLDS(gist_search3(index, 1, GIST_OVERLAP, ALL, &found3, &count) == GIST_OK && count == 1 && is_entry3(found3, 7));
    HOLDS(gist_search3(NULL, 1, GIST_OVERLAP, ALL, &found3, &count) == GIST_SYSTEM);
    HOLDS(gist_search3(index, 1, GIST_OVERLAP, ALL, NULL, &count) == GIST_SYSTEM);
    HOLDS(gist_search3(index, 1, (enum gist_query)9, ALL, &found3, &count) == GIST_SYSTEM);
    HOLDS(gist_insert_many3(index, 1, NULL, 1, NULL) == GIST_SYSTEM);
    HOLDS(gist_close(index, NULL) == GIST_OK);
    /* what the file says of its keys is what counts: intervals are refused, as the program does it */
    int odd = open("deep", O_RDWR | O_CLOEXEC);
    gist_end end;
    HOLDS(pwrite(odd, "\0\2", 2, 512 + 6) == 2 && close(odd) == 0);
    HOLDS(gist_open(&index, NULL, "deep", 64, &end) == GIST_BAD_PARAMETER && !index && end.sentence[0]);
    HOLDS(gist_verify(NULL, "deep", NULL, NULL) == GIST_BAD_PARAMETER);
#ifndef GIST_EMBEDDED
    HOLDS(gist_dump(NULL, "deep", stdout, NULL) == GIST_BAD_PARAMETER);
    /* and a program that opens other keys than this client has is ended */
    script("opening", "read line; echo 0 refused 15 bad session; cat > rest");
    HOLDS(gist_open(&index, "./opening", "deep", 64, NULL) == GIST_PROTOCOL && !index);
    HOLDS(gist_open(&index, "./opening", "nowhere", 64, NULL) == GIST_SYSTEM && !index);
#endif
}
