// Boost's R-tree (quadratic split, at most 100 entries a node and at least 40) over the boxes and windows of gx_bench_runs:
// those of tree.c, or with -DDIMENSIONS=3 those of space.
// The arguments are what is asked and how often: `inserts`, so many boxes in a new tree; `queries`, so many windows looked for in
// a tree of a hundred thousand boxes, each with a separate vector for what is found; `kept`, the same with one vector for
// all. It prints how many boxes there are, or the sum of what was found, which is the one that gx_bench_runs prints.
#include "boost_tree.hpp"
#include <cstdio>
#include <cstdlib>
#include <cstring>

constexpr std::int32_t PLANE = 1048576, SIDE = 1024, WINDOW = DIMENSIONS == 3 ? 48000 : 10000;
constexpr std::uint64_t BOXES = 100000;

static std::int32_t draw(std::uint64_t &state, std::int32_t below) {
    state = state * UINT64_C(6364136223846793005) + UINT64_C(1442695040888963407);
    return static_cast<std::int32_t>((state >> 32) % static_cast<std::uint64_t>(below));
}

// Numbers along each axis, as a point.
static Point point(const std::int32_t *at) {
#if DIMENSIONS == 3
    return Point(at[0], at[1], at[2]);
#else
    return Point(at[0], at[1]);
#endif
}

static Box draw_box(std::uint64_t &state) {
    std::int32_t low[DIMENSIONS], high[DIMENSIONS];
    for (std::int32_t &at : low)
        at = draw(state, PLANE);
    for (int axis = 0; axis < DIMENSIONS; axis++)
        high[axis] = low[axis] + draw(state, SIDE);
    return Box(point(low), point(high));
}

static Box draw_window(std::uint64_t &state) {
    std::int32_t low[DIMENSIONS], high[DIMENSIONS];
    for (int axis = 0; axis < DIMENSIONS; axis++) {
        low[axis] = draw(state, PLANE);
        high[axis] = low[axis] + WINDOW;
    }
    return Box(point(low), point(high));
}

static Tree build(std::uint64_t boxes) {
    Tree tree;
    std::uint64_t state = 7;
    for (std::uint64_t row = 0; row < boxes; row++)
        tree.insert(Pair(draw_box(state), row));
    return tree;
}

static std::uint64_t look(const Tree &tree, const Box &window, std::vector<Pair> &found) {
    std::uint64_t sum = 0;
    tree.query(rtrees::intersects(window), std::back_inserter(found));
    for (const Pair &pair : found)
        sum += pair.second + 1;
    return sum;
}

static std::uint64_t query_many(const Tree &tree, std::uint64_t queries, bool is_kept) {
    std::uint64_t state = 11, sum = 0;
    std::vector<Pair> kept;
    for (std::uint64_t k = 0; k < queries; k++) {
        if (is_kept) {
            kept.clear();
            sum += look(tree, draw_window(state), kept);
        } else {
            std::vector<Pair> found;
            sum += look(tree, draw_window(state), found);
        }
    }
    return sum;
}

int main(int words_count, char **words) {
    if (words_count != 3)
        return 2;
    bool inserts = std::strcmp(words[1], "inserts") == 0;
    std::uint64_t count = std::strtoull(words[2], nullptr, 10);
    Tree tree = build(inserts ? count : BOXES);
    std::uint64_t sum = inserts ? tree.size() : query_many(tree, count, std::strcmp(words[1], "kept") == 0);
    std::printf("%llu\n", static_cast<unsigned long long>(sum));
    return 0;
}
