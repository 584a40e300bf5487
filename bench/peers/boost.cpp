// Boost's R-tree in memory, which keeps nothing: quadratic split, 40 to 100 entries a node.
#include "../boost_tree.hpp"
#include "peers.h"

static Tree *tree;
static std::vector<Pair> kept;

static Box box_of(const pair *it) {
    return Box(Point(it->x1, it->y1), Point(it->x2, it->y2));
}

unsigned peer_writers(void) {
    return 0;
}

void peer_open(const char *, size_t, bool is_new) {
    if (is_new)
        tree = new Tree;
}

// (it stays for the next opening)
void peer_close(void) {
}

void peer_begin(void) {
}

void peer_commit(void) {
}

void peer_abort(void) {
}

void peer_insert(const pair *pairs, size_t count) {
    for (const pair *it = pairs; it < pairs + count; it++)
        tree->insert(Pair(box_of(it), it->row));
}

void peer_delete(const pair *pairs, size_t count) {
    for (const pair *it = pairs; it < pairs + count; it++)
        if (tree->remove(Pair(box_of(it), it->row)) != 1)
            stop("delete", "it isn't there");
}

void peer_search(const pair *window, void (*found)(const pair *)) {
    kept.clear();
    tree->query(rtrees::intersects(box_of(window)), std::back_inserter(kept));
    for (const Pair &it : kept) {
        const Point &low = it.first.min_corner(), &high = it.first.max_corner();
        pair told = {it.second, low.get<0>(), low.get<1>(), high.get<0>(), high.get<1>()};
        found(&told);
    }
}

void peer_search_many(const pair *windows, size_t count, void (*found)(const pair *)) {
    for (size_t i = 0; i < count; i++) peer_search(&windows[i], found);
}

void peer_write(unsigned, const pair *it) {
    peer_insert(it, 1);
}

uint64_t peer_bytes(const char *) {
    return 0;
}
