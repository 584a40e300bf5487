/* Tests of what each call does, and of refusals of calls. */
#include "test.h"

#include <string.h>

void calls(void) {
    gist_index *index = fresh("calls", 512, 16);
    const gist_entry *found;
    gist_entry it = entry_of(7);
    size_t count;
    uint64_t number = 0;
    HOLDS(gist_begin(index, 1) == GIST_OK);
    HOLDS(gist_insert(index, 1, it.row, it.box) == GIST_OK);
    HOLDS(gist_insert(index, 1, UINT64_MAX, PLANE) == GIST_OK);
    HOLDS(gist_commit(index, 1, &number) == GIST_OK && number == 1);
    HOLDS(gist_begin(index, 2) == GIST_OK);
    HOLDS(gist_search(index, 2, GIST_OVERLAP, (gist_box){70, 0, 71, 0}, &found, &count) == GIST_OK && count == 2);
    HOLDS(is_entry(&found[0], 7) && found[1].row == UINT64_MAX && memcmp(&found[1].box, &PLANE, sizeof PLANE) == 0);
    HOLDS(gist_search(index, 2, GIST_WITHIN, (gist_box){0, -100, 100, 100}, &found, &count) == GIST_OK && count == 1);
    HOLDS(gist_search(index, 2, GIST_EQUAL, it.box, &found, &count) == GIST_OK && count == 1 && is_entry(found, 7));
    HOLDS(gist_search(index, 2, GIST_EQUAL, (gist_box){0, 0, 0, 0}, &found, &count) == GIST_OK && count == 0);
    HOLDS(gist_search(index, 2, GIST_COVERS, it.box, &found, &count) == GIST_OK && count == 2 && is_entry(found, 7));
    HOLDS(gist_search(index, 2, GIST_COVERS, (gist_box){0, -100, 100, 100}, &found, &count) == GIST_OK && count == 1);
    HOLDS(gist_delete(index, 2, UINT64_MAX, PLANE) == GIST_OK);
    HOLDS(gist_abort(index, 2) == GIST_OK);
    HOLDS(gist_begin(index, 2) == GIST_OK);
    HOLDS(gist_delete(index, 2, 7, it.box) == GIST_OK);
    HOLDS(gist_delete(index, 2, UINT64_MAX, PLANE) == GIST_OK);
    HOLDS(gist_commit(index, 2, NULL) == GIST_OK);
    HOLDS(gist_close(index, NULL) == GIST_OK);
    HOLDS(found_in("calls") == 0);
    HOLDS(gist_close(NULL, NULL) == GIST_OK);
}

void refusals(void) {
    gist_index *index = fresh("refusals", 512, 16);
    const gist_entry *found;
    size_t count;
    gist_box box = {0, 0, 1, 1};
    HOLDS(gist_insert(index, 1, 7, box) == GIST_NO_TRANSACTION);
    HOLDS(gist_commit(index, 1, NULL) == GIST_NO_TRANSACTION);
    HOLDS(gist_abort(index, 1) == GIST_NO_TRANSACTION);
    HOLDS(gist_begin(index, 1) == GIST_OK && gist_begin(index, 2) == GIST_OK);
    HOLDS(gist_begin(index, 1) == GIST_IN_TRANSACTION);
    HOLDS(gist_insert(index, 1, 7, box) == GIST_OK);
    HOLDS(gist_insert(index, 1, 7, box) == GIST_PRESENT);
    HOLDS(gist_delete(index, 1, 8, box) == GIST_ABSENT);
    HOLDS(gist_busy(index) == 0);
    HOLDS(gist_insert(index, 2, 7, box) == GIST_BUSY && gist_busy(index) == 1);
    HOLDS(gist_search(index, 2, GIST_OVERLAP, box, &found, &count) == GIST_BUSY && count == 0);
    HOLDS(gist_insert(index, 1, 9, (gist_box){1, 0, 0, 0}) == GIST_BAD_BOX);
    HOLDS(gist_search(index, 1, GIST_WITHIN, (gist_box){0, 1, 0, 0}, &found, &count) == GIST_BAD_BOX);
    HOLDS(gist_begin(index, 0) == GIST_BAD_SESSION && gist_begin(index, 9) == GIST_BAD_SESSION);
    HOLDS(gist_begin(index, UINT32_MAX) == GIST_BAD_SESSION);
    for (int32_t at = 0; at < 16; at++)
        HOLDS(gist_search(index, 1, GIST_EQUAL, (gist_box){at, 50, at, 50}, &found, &count) == GIST_OK);
    HOLDS(gist_search(index, 1, GIST_EQUAL, (gist_box){16, 50, 16, 50}, &found, &count) == GIST_PREDICATES_FULL);
    HOLDS(gist_close(index, NULL) == GIST_OK);
    HOLDS(found_in("refusals") == 0);
    index = fresh("refusals", 8, 4);
    for (count = 0; count < 50 && gist_begin(index, 1) == GIST_OK; count++) {
        gist_entry it = entry_of(count);
        int status = gist_insert(index, 1, it.row, it.box);
        if (status != GIST_OK) {
            HOLDS(status == GIST_PAGES_FULL);
            break;
        }
        HOLDS(gist_commit(index, 1, NULL) == GIST_OK);
    }
    HOLDS(count > 8 && count < 50);
    HOLDS(gist_close(index, NULL) == GIST_OK);
    HOLDS(found_in("refusals") == count);
}

void many(void) {
    static gist_entry entries[10000];
    gist_index *index = fresh("many", 512, 100);
    const gist_entry *found;
    size_t done = 1, count, hits = 0;
    fill(entries, 0, 10000);
    HOLDS(gist_begin(index, 1) == GIST_OK);
    HOLDS(gist_insert_many(index, 1, entries, 0, &done) == GIST_OK && done == 0);
    HOLDS(gist_insert_many(index, 1, entries, 10000, &done) == GIST_CLAIMS_FULL && done == 512);
    HOLDS(gist_abort(index, 1) == GIST_OK);
    HOLDS(gist_insert_many(index, UINT32_MAX, entries, 10000, &done) == GIST_BAD_SESSION && done == 0);
    for (size_t from = 0; from < 2000; from += 500) {
        HOLDS(gist_begin(index, 8) == GIST_OK);
        HOLDS(gist_insert_many(index, 8, entries + from, 500, &done) == GIST_OK && done == 500);
        HOLDS(gist_commit(index, 8, NULL) == GIST_OK);
    }
    HOLDS(gist_begin(index, 1) == GIST_OK);
    for (size_t i = 0; i < 10000; i++)
        if (gist_search(index, 1, GIST_EQUAL, entries[i % 15].box, &found, &count) == GIST_OK) hits += count;
    HOLDS(hits == 10000);
    for (int i = 0; i < 100; i++)
        HOLDS(gist_search(index, 1, GIST_OVERLAP, PLANE, &found, &count) == GIST_OK && count == 2000);
    HOLDS(is_entry(&found[1999], 1999));
    HOLDS(gist_delete_many(index, 1, entries + 1000, 500, &done) == GIST_OK && done == 500);
    HOLDS(gist_delete_many(index, 1, entries + 999, 2, &done) == GIST_ABSENT && done == 1);
    HOLDS(gist_close(index, NULL) == GIST_OK);
    HOLDS(found_in("many") == 2000);
}

void sessions(void) {
    gist_index *index = fresh("sessions", 512, 8);
    const gist_entry *found;
    size_t count;
    uint64_t number;
    for (unsigned s = 1; s <= 8; s++) HOLDS(gist_begin(index, s) == GIST_OK);
    for (uint64_t row = 0; row < 40; row++)
        for (unsigned s = 1; s <= 8; s++) {
            gist_entry it = entry_of((s - 1) * 40 + row);
            HOLDS(gist_insert(index, s, it.row, it.box) == GIST_OK);
        }
    for (unsigned s = 1; s <= 8; s++) {
        int32_t left = (int32_t)(s - 1) * 400;
        HOLDS(gist_search(index, s, GIST_OVERLAP, (gist_box){left, -500, left + 395, 500}, &found, &count) == GIST_OK &&
              count == 40);
    }
    for (unsigned s = 8; s >= 1; s--)
        HOLDS(s <= 4 ? gist_commit(index, s, &number) == GIST_OK && number == 5 - s : gist_abort(index, s) == GIST_OK);
    HOLDS(gist_close(index, NULL) == GIST_OK);
    HOLDS(found_in("sessions") == 160);
}

/* Several searches in one call: what each finds, in more than one write, and if one is refused. */
void searches(void) {
    gist_entry entries[500];
    gist_box boxes[100];
    gist_hits hits[100];
    gist_index *index = fresh("searches", 512, 16);
    size_t done, right = 0;
    fill(entries, 0, 500);
    HOLDS(gist_begin(index, 1) == GIST_OK && gist_insert_many(index, 1, entries, 500, NULL) == GIST_OK);
    HOLDS(gist_commit(index, 1, NULL) == GIST_OK && gist_begin(index, 2) == GIST_OK);
    for (int32_t i = 0; i < 100; i++) boxes[i] = i % 10 == 9 ? PLANE : (gist_box){i % 10 * 40, 0, i % 10 * 40 + 35, 0};
    HOLDS(gist_search_many(index, 2, GIST_OVERLAP, boxes, 100, hits, &done) == GIST_OK && done == 100);
    for (size_t i = 0; i < 100; i++) {
        size_t from = i % 10 == 9 ? 0 : i % 10 * 4, wanted = i % 10 == 9 ? 500 : 4, place = 0;
        while (place < hits[i].count && is_entry(&hits[i].found[place], from + place)) place++;
        right += place == wanted && hits[i].count == wanted;
    }
    HOLDS(right == 100);
    HOLDS(gist_search_many(index, 2, GIST_EQUAL, boxes, 0, NULL, &done) == GIST_OK && done == 0);
    boxes[5].x2 = -1;
    HOLDS(gist_search_many(index, 2, GIST_OVERLAP, boxes, 100, hits, &done) == GIST_BAD_BOX && done == 5);
    HOLDS(hits[4].count == 4 && is_entry(hits[4].found, 16));
    HOLDS(gist_abort(index, 2) == GIST_OK && gist_begin(index, 2) == GIST_OK && gist_begin(index, 3) == GIST_OK);
    /* one whose entry another session has written */
    HOLDS(gist_busy(index) == 0 && gist_delete(index, 3, 40, entries[40].box) == GIST_OK);
    boxes[0] = entries[0].box, boxes[1] = entries[40].box, boxes[2] = entries[1].box;
    HOLDS(gist_search_many(index, 2, GIST_EQUAL, boxes, 3, hits, &done) == GIST_BUSY && done == 1);
    HOLDS(gist_busy(index) == 3 && hits[0].count == 1 && is_entry(hits[0].found, 0));
    HOLDS(gist_abort(index, 3) == GIST_OK && gist_abort(index, 2) == GIST_OK);
    HOLDS(gist_search_many(index, 2, GIST_WITHIN, boxes, 3, hits, &done) == GIST_NO_TRANSACTION && done == 0);
    HOLDS(gist_close(index, NULL) == GIST_OK);
}
