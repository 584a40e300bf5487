// Keys of nodes scanned in plain C, beside the proved scan of gx_bench: live pairs of leaves that overlap a box, and
// the child of an inner node that needs least enlargement for a box.
// It compares what both find, and then times both over the same bytes, the one and the other in turn.
#include <stdbool.h>
#include <stddef.h>
#include <stdint.h>
#include <stdio.h>
#include <stdlib.h>
#include <string.h>
#include <time.h>

enum { PAGE = 4096, PAIR = 25, CHILD = 20, MOST = 2048, QUERIES = 2000, ROUNDS = 15, COMPARED = 400 };

typedef struct {
    int32_t x1, y1, x2, y2;
} Box;

typedef struct {
    uint8_t image[PAGE];
} Sent;

// The proved functions: false if memory is refused, or an image is no leaf or no inner node.
bool gx_bench_scan(const Sent *pages, size_t page_count, const Box *queries, size_t query_count, size_t *counts, size_t count_count);
bool gx_bench_choose(const Sent *page, uint32_t used, const Box *keys, size_t key_count, size_t *slots, size_t slot_count);

// ---- the same in plain C

static int32_t number(const uint8_t *at) {
    uint32_t n;
    memcpy(&n, at, 4);
    return (int32_t)__builtin_bswap32(n);
}

static size_t count_of(const uint8_t *image) {
    return (size_t)image[2] << 8 | image[3];
}

// One test after another, each but for the last with a jump.
__attribute__((noinline)) static size_t scan_with_and(const Sent *pages, size_t page_count, const Box *q) {
    size_t hits = 0;
    for (size_t page = 0; page < page_count; page++) {
        const uint8_t *at = pages[page].image + PAGE;
        for (size_t left = count_of(pages[page].image); left > 0; left--) {
            at -= PAIR;
            if (number(at) <= q->x2 && number(at + 4) <= q->y2 && q->x1 <= number(at + 8) && q->y1 <= number(at + 12) && at[24] == 0)
                hits++;
        }
    }
    return hits;
}

// All tests of an entry, and no jump on them.
__attribute__((noinline)) static size_t scan_without_branches(const Sent *pages, size_t page_count, const Box *q) {
    size_t hits = 0;
    for (size_t page = 0; page < page_count; page++) {
        const uint8_t *at = pages[page].image + PAGE;
        for (size_t left = count_of(pages[page].image); left > 0; left--) {
            at -= PAIR;
            hits += (number(at) <= q->x2) & (number(at + 4) <= q->y2) & (q->x1 <= number(at + 8)) & (q->y1 <= number(at + 12)) & (at[24] == 0);
        }
    }
    return hits;
}

static uint64_t area(int32_t x1, int32_t y1, int32_t x2, int32_t y2) {
    return (uint64_t)((uint32_t)x2 - (uint32_t)x1) * ((uint32_t)y2 - (uint32_t)y1);
}

static int32_t lesser(int32_t a, int32_t b) {
    return a < b ? a : b;
}

static int32_t greater(int32_t a, int32_t b) {
    return a < b ? b : a;
}

__attribute__((noinline)) static size_t choose(const Sent *page, const Box *key) {
    const uint8_t *at = page->image + PAGE;
    size_t count = count_of(page->image), best = 0;
    uint64_t least_growth = UINT64_MAX, least_area = UINT64_MAX;
    for (size_t slot = 0; slot < count; slot++) {
        at -= CHILD;
        int32_t x1 = number(at), y1 = number(at + 4), x2 = number(at + 8), y2 = number(at + 12);
        uint64_t size = area(x1, y1, x2, y2);
        uint64_t growth = area(lesser(x1, key->x1), lesser(y1, key->y1), greater(x2, key->x2), greater(y2, key->y2)) - size;
        if (growth < least_growth || (growth == least_growth && size < least_area)) {
            least_growth = growth;
            least_area = size;
            best = slot;
        }
    }
    return best;
}

// ---- pages and queries

static uint64_t state;

static uint64_t drawn(void) {
    state ^= state << 13;
    state ^= state >> 7;
    state ^= state << 17;
    return state * UINT64_C(2685821657736338717);
}

static uint64_t below(uint64_t bound) {
    return (drawn() >> 16) % bound;
}

static void put(uint8_t *at, uint32_t n) {
    n = __builtin_bswap32(n);
    memcpy(at, &n, 4);
}

static void put_box(uint8_t *at, Box b) {
    put(at, (uint32_t)b.x1);
    put(at + 4, (uint32_t)b.y1);
    put(at + 8, (uint32_t)b.x2);
    put(at + 12, (uint32_t)b.y2);
}

// A box in a plane of a million by a million, with sides up to some length.
static Box draw_box(uint32_t side) {
    int32_t x = (int32_t)below(1000000), y = (int32_t)below(1000000);
    Box b = {x, y, x + (int32_t)below(side), y + (int32_t)below(side)};
    return b;
}

// A page with its directory filled in, whose items of one size are to be written.
static void lay_out(uint8_t *image, uint32_t level, uint32_t page, size_t count, size_t size) {
    memset(image, 0, PAGE);
    size_t start = PAGE - size * count;
    image[1] = (uint8_t)level;
    image[2] = (uint8_t)(count >> 8);
    image[3] = (uint8_t)count;
    image[4] = (uint8_t)(start >> 8);
    image[5] = (uint8_t)start;
    put(image + 20, page);
    for (size_t slot = 0; slot < count; slot++) {
        size_t place = PAGE - size * (slot + 1);
        uint8_t *at = image + 32 + 4 * slot;
        at[0] = (uint8_t)(place >> 8);
        at[1] = (uint8_t)place;
        at[3] = (uint8_t)size;
    }
}

// A leaf of small boxes, of which one in fifty is marked.
static void draw_leaf(uint8_t *image, uint32_t page, size_t count) {
    lay_out(image, 0, page, count, PAIR);
    for (size_t slot = 0; slot < count; slot++) {
        uint8_t *at = image + PAGE - PAIR * (slot + 1);
        put_box(at, draw_box(100));
        put(at + 20, (uint32_t)(100 * page + slot));
        at[24] = below(50) == 0;
    }
}

// An inner node of bounds up to so long.
static void draw_inner(uint8_t *image, uint32_t page, size_t count, uint32_t side) {
    lay_out(image, 1, page, count, CHILD);
    for (size_t slot = 0; slot < count; slot++) {
        uint8_t *at = image + PAGE - CHILD * (slot + 1);
        put_box(at, draw_box(side));
        put(at + 16, 2);
    }
}

// A square of this side within the plane.
static Box draw_query(uint32_t side) {
    int32_t x = (int32_t)below(1000001 - side), y = (int32_t)below(1000001 - side);
    Box b = {x, y, x + (int32_t)side, y + (int32_t)side};
    return b;
}

static Sent pages[MOST];
static Box queries[QUERIES];
static size_t found[3][QUERIES];

static void fail(const char *what) {
    printf("%s\n", what);
    exit(1);
}

static void scan_proved(size_t page_count, size_t query_count) {
    if (!gx_bench_scan(pages, page_count, queries, query_count, found[0], query_count))
        fail("the proved scan was refused");
}

static void scan_c(size_t (*scan)(const Sent *, size_t, const Box *), size_t page_count, size_t query_count, size_t *counts) {
    for (size_t k = 0; k < query_count; k++)
        counts[k] = scan(pages, page_count, &queries[k]);
}

static void choose_proved(size_t page_count, size_t key_count) {
    for (size_t page = 0; page < page_count; page++)
        if (!gx_bench_choose(&pages[page], 2, queries, key_count, found[0], key_count))
            fail("the proved choice was refused");
}

static void choose_c(size_t page_count, size_t key_count) {
    for (size_t page = 0; page < page_count; page++)
        for (size_t k = 0; k < key_count; k++)
            found[1][k] = choose(&pages[page], &queries[k]);
}

// ---- the same answers

static void compare_scans(void) {
    size_t hits = 0;
    for (int run = 0; run < COMPARED; run++) {
        uint32_t side = 1 + (uint32_t)below(below(2) ? 1000000 : 20000);
        for (uint32_t page = 0; page < 8; page++)
            draw_leaf(pages[page].image, page + 2, below(4) == 0 ? below(3) : below(101));
        for (int k = 0; k < 20; k++)
            queries[k] = draw_query(side);
        scan_proved(8, 20);
        scan_c(scan_with_and, 8, 20, found[1]);
        scan_c(scan_without_branches, 8, 20, found[2]);
        if (memcmp(found[0], found[1], sizeof(size_t) * 20) != 0 || memcmp(found[0], found[2], sizeof(size_t) * 20) != 0)
            fail("the scans differ");
        for (int k = 0; k < 20; k++)
            hits += found[0][k];
    }
    printf("equal at %d scans of 8 leaves, with %zu hits\n", COMPARED * 20, hits);
}

static void compare_choices(void) {
    for (int run = 0; run < COMPARED; run++) {
        draw_inner(pages[0].image, 1, 1 + below(100), 1 + (uint32_t)below(below(2) ? 1000000 : 50));
        for (int k = 0; k < 20; k++)
            queries[k] = draw_box(1 + (uint32_t)below(1000));
        choose_proved(1, 20);
        choose_c(1, 20);
        if (memcmp(found[0], found[1], sizeof(size_t) * 20) != 0)
            fail("the choices differ");
    }
    printf("equal at %d choices of a child\n", COMPARED * 20);
}

// ---- times

static double seconds(void) {
    struct timespec now;
    clock_gettime(CLOCK_PROCESS_CPUTIME_ID, &now);
    return (double)now.tv_sec + (double)now.tv_nsec * 1e-9;
}

static int order(const void *a, const void *b) {
    double x = *(const double *)a, y = *(const double *)b;
    return x < y ? -1 : x > y;
}

static double median(double *of) {
    qsort(of, ROUNDS, sizeof(double), order);
    return of[ROUNDS / 2];
}

// Entries a second of each scan, and the proved one's over the others. The proved side's time has in it that pages are made
// of the images and tested, once for all queries.
static void time_scan(const char *where, size_t page_count, size_t query_count, size_t entries, const char *hits, uint32_t side) {
    double times[3][ROUNDS], over_and[ROUNDS], over_none[ROUNDS];
    for (uint32_t page = 0; page < page_count; page++)
        draw_leaf(pages[page].image, page + 2, entries);
    for (size_t k = 0; k < query_count; k++)
        queries[k] = draw_query(side);
    for (int round = 0; round < ROUNDS; round++) {
        double from = seconds();
        scan_c(scan_with_and, page_count, query_count, found[1]);
        double after_and = seconds();
        scan_c(scan_without_branches, page_count, query_count, found[2]);
        double after_none = seconds();
        scan_proved(page_count, query_count);
        double end = seconds();
        times[0][round] = end - after_none;
        times[1][round] = after_and - from;
        times[2][round] = after_none - after_and;
        over_and[round] = times[1][round] / times[0][round];
        over_none[round] = times[2][round] / times[0][round];
    }
    double tests = 1e-6 * (double)(page_count * entries * query_count);
    printf("%s, %3zu a page, %s hits: %4.0f proved, %4.0f C with &&, %4.0f C without branches; ratios %.2f and %.2f\n", where, entries,
           hits, tests / median(times[0]), tests / median(times[1]), tests / median(times[2]), median(over_and), median(over_none));
}

static void time_choice(size_t page_count, size_t key_count, size_t entries) {
    double times[2][ROUNDS], over[ROUNDS];
    for (uint32_t page = 0; page < page_count; page++)
        draw_inner(pages[page].image, page + 1, entries, 100000);
    for (size_t k = 0; k < key_count; k++)
        queries[k] = draw_box(100);
    for (int round = 0; round < ROUNDS; round++) {
        double from = seconds();
        choose_c(page_count, key_count);
        double between = seconds();
        choose_proved(page_count, key_count);
        double end = seconds();
        times[0][round] = end - between;
        times[1][round] = between - from;
        over[round] = times[1][round] / times[0][round];
    }
    double bounds = 1e-6 * (double)(page_count * entries * key_count);
    printf("child of least penalty, %3zu a page: %4.0f proved, %4.0f C; ratio %.2f\n", entries, bounds / median(times[0]),
           bounds / median(times[1]), median(over));
}

int main(int count, char **words) {
    state = count > 1 ? strtoull(words[1], NULL, 10) : 20250101;
    if (state == 0)
        state = 1;
    compare_scans();
    compare_choices();
    printf("million entries a second, the median of %d rounds, the three in turn\n", ROUNDS);
    for (size_t entries = 100; entries >= 50; entries -= 50) {
        time_scan("64 pages", 64, 2000, entries, " 1 %", 99000);
        time_scan("64 pages", 64, 2000, entries, "50 %", 714000);
        time_scan("2048 pages", 2048, 200, entries, " 1 %", 99000);
        time_scan("2048 pages", 2048, 200, entries, "50 %", 714000);
    }
    time_choice(64, 1000, 100);
    time_choice(64, 1000, 50);
    return 0;
}
