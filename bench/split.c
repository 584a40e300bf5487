// The quadratic split of boxes in plain C, beside the proved one of gx_bench, over the same seeded boxes.
// It compares the sides of both, and then times both over the same splits.
#include <stdbool.h>
#include <stddef.h>
#include <stdint.h>
#include <stdio.h>
#include <stdlib.h>
#include <string.h>
#include <time.h>

enum { MOST = 101, NODE = 100, LEAST = 40, COMPARED = 12000, TIMED = 250, ROUNDS = 60 };

typedef struct {
    int32_t x1, y1, x2, y2;
} Box;

// The proved split. It needs 1 <= least, 2 * least <= count <= 101, and boxes with no side reversed.
void gx_bench_split(const Box *boxes, size_t count, size_t least, bool *sides, size_t sides_count);

typedef __int128 Wide;

static uint64_t area(Box b) {
    return (uint64_t)((int64_t)b.x2 - b.x1) * (uint64_t)((int64_t)b.y2 - b.y1);
}

static Box joined(Box a, Box b) {
    Box c = {
        a.x1 < b.x1 ? a.x1 : b.x1,
        a.y1 < b.y1 ? a.y1 : b.y1,
        a.x2 > b.x2 ? a.x2 : b.x2,
        a.y2 > b.y2 ? a.y2 : b.y2,
    };
    return c;
}

static uint64_t growth(Box cover, Box key) {
    return area(joined(cover, key)) - area(cover);
}

// The first of the pairs that waste most.
static void worst_pair(const Box *boxes, size_t count, size_t *lower, size_t *higher) {
    uint64_t areas[MOST];
    for (size_t i = 0; i < count; i++)
        areas[i] = area(boxes[i]);
    bool found = false;
    Wide worst = 0;
    for (size_t i = 0; i + 1 < count; i++) {
        for (size_t j = i + 1; j < count; j++) {
            Wide waste = (Wide)area(joined(boxes[i], boxes[j])) - areas[i] - areas[j];
            if (!found || waste > worst) {
                found = true;
                worst = waste;
                *lower = i;
                *higher = j;
            }
        }
    }
}

// A slot that waits, and how much the cover of each group grows by its box.
typedef struct {
    size_t slot;
    uint64_t grows[2];
} Waiting;

// The place of the first slot at which the growths are farthest apart.
static size_t farthest(const Waiting *waiting, size_t left) {
    size_t place = 0;
    uint64_t greatest = 0;
    for (size_t k = 0; k < left; k++) {
        uint64_t a = waiting[k].grows[0], b = waiting[k].grows[1];
        uint64_t apart = a > b ? a - b : b - a;
        if (apart > greatest) {
            greatest = apart;
            place = k;
        }
    }
    return place;
}

static int chosen_side(const Waiting *next, const Box *covers, const size_t *counts, size_t left, size_t least) {
    if (counts[0] + left <= least)
        return 0;
    if (counts[1] + left <= least)
        return 1;
    if (next->grows[0] != next->grows[1])
        return next->grows[1] < next->grows[0];
    uint64_t first = area(covers[0]), second = area(covers[1]);
    if (first != second)
        return second < first;
    return counts[1] < counts[0];
}

static void c_split(const Box *boxes, size_t count, size_t least, bool *sides) {
    size_t lower = 0, higher = 1;
    worst_pair(boxes, count, &lower, &higher);
    Box covers[2] = {boxes[lower], boxes[higher]};
    size_t counts[2] = {1, 1};
    Waiting waiting[MOST];
    size_t left = 0;
    for (size_t slot = 0; slot < count; slot++) {
        if (slot != lower && slot != higher) {
            Waiting w = {slot, {growth(covers[0], boxes[slot]), growth(covers[1], boxes[slot])}};
            waiting[left++] = w;
        }
    }
    memset(sides, 0, count * sizeof *sides);
    sides[higher] = true;
    while (left > 0) {
        size_t place = farthest(waiting, left);
        Waiting next = waiting[place];
        int side = chosen_side(&next, covers, counts, left, least);
        left--;
        memmove(waiting + place, waiting + place + 1, (left - place) * sizeof *waiting);
        covers[side] = joined(covers[side], boxes[next.slot]);
        counts[side]++;
        sides[next.slot] = side;
        for (size_t k = 0; k < left; k++)
            waiting[k].grows[side] = growth(covers[side], boxes[waiting[k].slot]);
    }
}

static uint64_t state;

static uint64_t drawn(void) {
    state ^= state << 13;
    state ^= state >> 7;
    state ^= state << 17;
    return state * UINT64_C(2685821657736338717);
}

static uint64_t below(uint64_t bound) {
    return (drawn() >> 16) % bound;
}

// A low end and a high end of one axis, by the kind of boxes that is wanted.
static void draw_side(int kind, int32_t *low, int32_t *high) {
    int64_t a, b;
    switch (kind) {
    case 0: // small boxes over a large plane
        a = (int64_t)below(2000000) - 1000000;
        b = a + (int64_t)below(2000);
        break;
    case 1: // boxes of a small grid, with many ties
        a = (int64_t)below(6);
        b = a + (int64_t)below(3);
        break;
    case 2: // points of a small grid
        a = b = (int64_t)below(9);
        break;
    case 3: // any corners
        a = (int64_t)below(UINT64_C(1) << 32) + INT32_MIN;
        b = (int64_t)below(UINT64_C(1) << 32) + INT32_MIN;
        break;
    default: // the ends of the plane, with the greatest areas
        a = below(2) ? INT32_MIN : INT32_MAX;
        b = below(2) ? INT32_MIN : INT32_MAX;
    }
    *low = (int32_t)(a < b ? a : b);
    *high = (int32_t)(a < b ? b : a);
}

static void draw_boxes(int kind, Box *boxes, size_t count) {
    for (size_t i = 0; i < count; i++) {
        draw_side(kind, &boxes[i].x1, &boxes[i].x2);
        draw_side(kind, &boxes[i].y1, &boxes[i].y2);
    }
}

// Fails at the first split of which the two give different sides.
static void compare(const Box *boxes, size_t count, size_t least, int number) {
    bool first[MOST], second[MOST];
    memset(first, 1, sizeof first);
    c_split(boxes, count, least, first);
    memset(second, 1, sizeof second);
    gx_bench_split(boxes, count, least, second, count);
    for (size_t i = 0; i < MOST; i++) {
        if (first[i] != second[i]) {
            printf("split %d: %zu boxes, at least %zu: slot %zu is on different sides\n", number, count, least, i);
            exit(1);
        }
    }
}

static void compare_all(void) {
    Box boxes[MOST];
    int full = 0;
    for (int number = 0; number < COMPARED; number++) {
        size_t count = number % 2 ? NODE : 4 + below(MOST - 3);
        size_t least = number % 2 ? LEAST : 2 + below(count / 2 - 1);
        draw_boxes(number / 2 % 5, boxes, count);
        compare(boxes, count, least, number);
        full += count == NODE;
    }
    printf("equal sides at %d splits, %d of them of %d boxes\n", COMPARED, full, NODE);
}

static double seconds(void) {
    struct timespec now;
    clock_gettime(CLOCK_PROCESS_CPUTIME_ID, &now);
    return (double)now.tv_sec + (double)now.tv_nsec * 1e-9;
}

static Box timed[TIMED][NODE];
static unsigned sum;

static double time_c(void) {
    bool sides[NODE];
    double from = seconds();
    for (int i = 0; i < TIMED; i++) {
        c_split(timed[i], NODE, LEAST, sides);
        sum += sides[i % NODE];
    }
    return seconds() - from;
}

static double time_proved(void) {
    bool sides[NODE];
    double from = seconds();
    for (int i = 0; i < TIMED; i++) {
        gx_bench_split(timed[i], NODE, LEAST, sides, NODE);
        sum += sides[i % NODE];
    }
    return seconds() - from;
}

static void time_kind(int kind, const char *name) {
    for (int i = 0; i < TIMED; i++)
        draw_boxes(kind, timed[i], NODE);
    double best_c = 1e9, best_proved = 1e9;
    for (int round = 0; round < ROUNDS; round++) {
        double c = time_c(), proved = time_proved();
        best_c = c < best_c ? c : best_c;
        best_proved = proved < best_proved ? proved : best_proved;
    }
    double c_rate = TIMED / best_c, proved_rate = TIMED / best_proved;
    printf("%-24s C %8.0f splits/s, proved %8.0f splits/s, ratio %.2f\n", name, c_rate, proved_rate, proved_rate / c_rate);
}

int main(int count, char **words) {
    state = count > 1 ? strtoull(words[1], NULL, 10) : 20250101;
    if (state == 0)
        state = 1;
    compare_all();
    printf("%d splits of %d boxes, at least %d a side, best of %d rounds, alternating\n", TIMED, NODE, LEAST, ROUNDS);
    time_kind(0, "small boxes");
    time_kind(3, "any corners");
    time_kind(2, "points of a small grid");
    return sum == UINT32_MAX;
}
