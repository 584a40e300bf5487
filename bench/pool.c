// Looks at pages of a file through frames in plain C, beside the proved pool of gx_bench_runs. The arguments are `hits`,
// with each page in a frame, or `misses`, with few of them, and how often. It prints a sum of what the pages say.
// A page that comes in is tested as the proved pool tests it: the whole image, its own number, and that it is a leaf.
#include <fcntl.h>
#include <stdbool.h>
#include <stdint.h>
#include <stdio.h>
#include <stdlib.h>
#include <string.h>
#include <unistd.h>

enum { PAGE = 4096, AREA = 16648, SECTOR = 512, KEPT = 1024, PAGES = 4096, FRAMES = 64, ITEMS = 100, ITEM = 25, NONE = 0xffff };

typedef struct {
    uint32_t page; // 0 for an empty frame
    uint16_t level;
    bool dirty;
} Mark;

static uint8_t *frames[KEPT]; // each a separate block, as the proved pool has them
static Mark *marks;
static uint16_t places[65537];
static uint8_t buffer[PAGE];
static int frame_count, hand, file;

static uint16_t u16_at(const uint8_t *at) {
    return (uint16_t)(at[0] << 8 | at[1]);
}

static uint32_t u32_at(const uint8_t *at) {
    uint32_t n;
    memcpy(&n, at, 4);
    return __builtin_bswap32(n);
}

static uint64_t u64_at(const uint8_t *at) {
    uint64_t n;
    memcpy(&n, at, 8);
    return __builtin_bswap64(n);
}

static void put_u16(uint8_t *at, uint32_t n) {
    at[0] = (uint8_t)(n >> 8);
    at[1] = (uint8_t)n;
}

static bool all_zero(const uint8_t *bytes, size_t count) {
    static const uint8_t zeros[PAGE];
    return memcmp(bytes, zeros, count) == 0;
}

// Whether the bytes are the image of a page.
static bool is_image(const uint8_t *image) {
    if (!all_zero(image + 6, 2) || !all_zero(image + 24, 8))
        return false;
    uint32_t count = u16_at(image + 2), start = u16_at(image + 4), end = PAGE;
    if (32 + 4 * count > PAGE)
        return false;
    for (uint32_t slot = 0; slot < count; slot++) {
        uint32_t place = u16_at(image + 32 + 4 * slot), size = u16_at(image + 34 + 4 * slot);
        if (size == 0 || place + size != end)
            return false;
        end = place;
    }
    if (start != end || start < 32 + 4 * count)
        return false;
    return all_zero(image + 32 + 4 * count, start - 32 - 4 * count);
}

static off_t offset_of(uint32_t page) {
    return (off_t)SECTOR * (AREA + 8 * (page - 1));
}

static int clean_between(int from, int to, bool leaf) {
    for (int i = from; i < to; i++)
        if (!marks[i].dirty && (!leaf || marks[i].level == 0))
            return i;
    return -1;
}

// The frame for a page that comes in: the first clean one with a leaf, or empty, from the hand on and round; or any clean one.
static int frame_to_use(void) {
    int i = clean_between(hand, frame_count, true);
    if (i < 0)
        i = clean_between(0, hand, true);
    if (i < 0)
        i = clean_between(0, frame_count, false);
    if (i >= 0)
        hand = i + 1;
    return i;
}

static void stop(const char *what) {
    fprintf(stderr, "%s\n", what);
    exit(1);
}

static int fetch(uint32_t page) {
    int i = frame_to_use();
    if (i < 0)
        stop("no frame");
    if (pread(file, buffer, PAGE, offset_of(page)) != PAGE)
        stop("a read failed");
    if (marks[i].page != 0)
        places[marks[i].page] = NONE;
    marks[i] = (Mark){0, 0, false};
    if (!is_image(buffer))
        stop("a damaged page");
    uint8_t *frame = frames[i];
    memcpy(frame, buffer, PAGE);
    if (u32_at(frame + 20) != page || u16_at(frame) != 0)
        stop("another page");
    marks[i] = (Mark){page, u16_at(frame), false};
    places[page] = (uint16_t)i;
    return i;
}

static const uint8_t *view(uint32_t page) {
    int i = places[page];
    if (i == NONE)
        i = fetch(page);
    return frames[i];
}

static void make_pool(int count) {
    frame_count = count;
    marks = calloc((size_t)count, sizeof *marks);
    memset(places, 0xff, sizeof places);
    for (int i = 0; i < count; i++)
        if ((frames[i] = calloc(1, PAGE)) == NULL)
            stop("no memory");
    if (marks == NULL)
        stop("no memory");
}

// A dirty blank leaf in each frame.
static void create_all(void) {
    for (uint32_t page = 1; page <= KEPT; page++) {
        uint8_t *frame = frames[page - 1];
        put_u16(frame + 4, PAGE);
        put_u16(frame + 22, page);
        marks[page - 1] = (Mark){page, 0, true};
        places[page] = (uint16_t)(page - 1);
    }
}

static void lay_all(void) {
    for (uint32_t page = 1; page <= PAGES; page++) {
        uint8_t image[PAGE] = {0};
        put_u16(image + 2, ITEMS);
        put_u16(image + 4, PAGE - ITEM * ITEMS);
        put_u16(image + 14, 3 * page);
        put_u16(image + 22, page);
        for (uint32_t slot = 0; slot < ITEMS; slot++) {
            put_u16(image + 32 + 4 * slot, PAGE - ITEM * (slot + 1));
            put_u16(image + 34 + 4 * slot, ITEM);
        }
        memset(image + PAGE - ITEM * ITEMS, 7, ITEM * ITEMS);
        if (pwrite(file, image, PAGE, offset_of(page)) != PAGE)
            stop("a write failed");
    }
}

int main(int count, char **words) {
    if (count != 3)
        return 2;
    bool hits = strcmp(words[1], "hits") == 0;
    uint64_t looks = strtoull(words[2], NULL, 10), sum = 0;
    uint32_t state = 7, pages = hits ? KEPT : PAGES;
    file = open("pages.device", O_RDWR | O_CREAT, 0666);
    if (file < 0 || ftruncate(file, offset_of(PAGES + 1)) != 0)
        stop("no file");
    make_pool(hits ? KEPT : FRAMES);
    if (hits)
        create_all();
    else
        lay_all();
    for (uint64_t look = 0; look < looks; look++) {
        state = state * 1664525 + 1013904223;
        const uint8_t *page = view(1 + (state >> 8) % pages);
        sum += u32_at(page + 20) + u64_at(page + 8);
    }
    printf("%llu\n", (unsigned long long)sum);
    return 0;
}
