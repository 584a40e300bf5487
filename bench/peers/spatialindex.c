/* libspatialindex: its R-tree in a file, with the quadratic split and pages of a hundred entries. It has no
   transactions, and syncs nothing: a commit is a flush to the system. A search gives rows alone. */
#include "peers.h"

#include <spatialindex/capi/sidx_api.h>
#include <stdio.h>
#include <stdlib.h>

static IndexH tree;

static void expect(const char *what, RTError told) {
    if (told != RT_None) {
        char *why = Error_GetLastErrorMsg();
        stop(what, why ? why : "");
    }
}

unsigned peer_writers(void) {
    return 0;
}

void peer_open(const char *path, size_t entries, bool is_new) {
    IndexPropertyH how = IndexProperty_Create();
    (void)entries;
    expect("type", IndexProperty_SetIndexType(how, RT_RTree));
    expect("variant", IndexProperty_SetIndexVariant(how, RT_Quadratic));
    expect("dimension", IndexProperty_SetDimension(how, 2));
    expect("capacity", IndexProperty_SetIndexCapacity(how, 100));
    expect("capacity", IndexProperty_SetLeafCapacity(how, 100));
    expect("fill", IndexProperty_SetFillFactor(how, 0.4));
    expect("storage", IndexProperty_SetIndexStorage(how, RT_Disk));
    expect("page size", IndexProperty_SetPagesize(how, 4096));
    expect("buffer", IndexProperty_SetBufferingCapacity(how, MEMORY / 4));
    expect("file", IndexProperty_SetFileName(how, path));
    expect("overwrite", IndexProperty_SetOverwrite(how, is_new));
    if (!is_new) expect("which", IndexProperty_SetIndexID(how, 1));
    tree = Index_Create(how);
    IndexProperty_Destroy(how);
    if (!tree) expect("open", RT_Failure);
}

void peer_close(void) {
    Index_Destroy(tree);
}

void peer_begin(void) {
}

void peer_commit(void) {
    Index_Flush(tree);
}

void peer_abort(void) {
}

void peer_insert(const pair *pairs, size_t count) {
    for (const pair *it = pairs; it < pairs + count; it++)
        expect("insert", Index_InsertData(tree, (int64_t)it->row, (double[]){it->x1, it->y1},
                                          (double[]){it->x2, it->y2}, 2, NULL, 0));
}

void peer_delete(const pair *pairs, size_t count) {
    for (const pair *it = pairs; it < pairs + count; it++)
        expect("delete",
               Index_DeleteData(tree, (int64_t)it->row, (double[]){it->x1, it->y1}, (double[]){it->x2, it->y2}, 2));
}

void peer_search(const pair *window, void (*found)(const pair *)) {
    int64_t *rows = NULL;
    uint64_t count = 0;
    expect("search", Index_Intersects_id(tree, (double[]){window->x1, window->y1}, (double[]){window->x2, window->y2},
                                         2, &rows, &count));
    for (uint64_t i = 0; i < count; i++) found(&(pair){.row = (uint64_t)rows[i]});
    if (rows) Index_Free(rows);
}

void peer_search_many(const pair *windows, size_t count, void (*found)(const pair *)) {
    for (size_t i = 0; i < count; i++) peer_search(&windows[i], found);
}

void peer_write(unsigned writer, const pair *it) {
    (void)writer;
    peer_insert(it, 1);
}

uint64_t peer_bytes(const char *path) {
    return bytes_of(path, ".dat") + bytes_of(path, ".idx");
}
