// Records of the log written and read in plain C, beside the proved ones of gx_bench.
// It compares what both write, and how far both read streams of records, whole ones and ones with a byte changed.
// Then it times both over the same records.
#include <stdbool.h>
#include <stddef.h>
#include <stdint.h>
#include <stdio.h>
#include <stdlib.h>
#include <string.h>
#include <time.h>

enum { PAGE = 4096, KEY = 16, ENTRY = 25, RECORDS = 64, STREAM = RECORDS * 12400, COMPARED = 4000, ROUNDS = 60, REPEATS = 40 };

// The proved functions. Each has room in `out` for its record, and `image` is the image of page `leaf`.
size_t gx_bench_write_commit(uint64_t tx, uint64_t n, uint8_t *out, size_t room);
size_t gx_bench_write_note(uint64_t tx, uint64_t row, const uint8_t *key, size_t key_size, bool before, uint32_t leaf, uint8_t *out, size_t room);
size_t gx_bench_write_write(uint64_t tx, uint64_t row, const uint8_t *key, size_t key_size, bool before, bool after, uint32_t leaf,
                            const uint8_t *image, size_t image_size, uint8_t *out, size_t room);
size_t gx_bench_read(const uint8_t *bytes, size_t count, size_t key);

// ---- the same in plain C

typedef struct {
    uint32_t page;
    const uint8_t *image;
} Lent;

typedef struct {
    uint8_t kind;
    uint64_t tx, row, n, counter, next;
    uint32_t used, count;
    bool before, after;
    const uint8_t *key;
    size_t key_size;
    Lent pages[3];
} Record;

static uint8_t *put_u64(uint8_t *at, uint64_t n) {
    n = __builtin_bswap64(n);
    memcpy(at, &n, 8);
    return at + 8;
}

static uint8_t *put_u32(uint8_t *at, uint32_t n) {
    n = __builtin_bswap32(n);
    memcpy(at, &n, 4);
    return at + 4;
}

static uint8_t *put_bytes(uint8_t *at, const uint8_t *bytes, size_t count) {
    memcpy(at, bytes, count);
    return at + count;
}

static uint64_t u64_at(const uint8_t *at) {
    uint64_t n;
    memcpy(&n, at, 8);
    return __builtin_bswap64(n);
}

static uint32_t u32_at(const uint8_t *at) {
    uint32_t n;
    memcpy(&n, at, 4);
    return __builtin_bswap32(n);
}

static uint32_t u16_at(const uint8_t *at) {
    return (uint32_t)at[0] << 8 | at[1];
}

// How many bytes a record's spelling has.
static size_t size_of(const Record *record) {
    switch (record->kind) {
    case 1:
        return 14 + (size_t)(4 + PAGE) * record->count;
    case 2:
        return 23 + record->key_size + PAGE;
    case 3:
        return 17;
    case 4:
        return 9;
    case 5:
        return 29;
    default:
        return 22 + record->key_size;
    }
}

// Writes a record of any kind at the front. The bytes that it has, or 0 if there is no room.
__attribute__((noinline)) static size_t c_written(const Record *record, uint8_t *out, size_t room) {
    size_t size = size_of(record);
    if (room < size)
        return 0;
    *out = record->kind;
    uint8_t *at = out + 1;
    switch (record->kind) {
    case 1:
        at = put_u32(put_u64(at, record->counter), record->used);
        *at++ = (uint8_t)record->count;
        for (uint32_t i = 0; i < record->count; i++)
            at = put_bytes(put_u32(at, record->pages[i].page), record->pages[i].image, PAGE);
        break;
    case 2:
        at = put_bytes(put_u64(put_u64(at, record->tx), record->row), record->key, record->key_size);
        *at++ = record->before;
        *at++ = record->after;
        put_bytes(put_u32(at, record->pages[0].page), record->pages[0].image, PAGE);
        break;
    case 3:
        put_u64(put_u64(at, record->tx), record->n);
        break;
    case 4:
        put_u64(at, record->tx);
        break;
    case 5:
        put_u64(put_u32(put_u64(put_u64(at, record->n), record->counter), record->used), record->next);
        break;
    default:
        at = put_bytes(put_u64(put_u64(at, record->tx), record->row), record->key, record->key_size);
        *at++ = record->before;
        put_u32(at, record->pages[0].page);
    }
    return size;
}

__attribute__((noinline)) static size_t c_write_commit(uint64_t tx, uint64_t n, uint8_t *out, size_t room) {
    Record record;
    record.kind = 3;
    record.tx = tx;
    record.n = n;
    return c_written(&record, out, room);
}

__attribute__((noinline)) static size_t c_write_note(uint64_t tx, uint64_t row, const uint8_t *key, size_t key_size, bool before,
                                                     uint32_t leaf, uint8_t *out, size_t room) {
    Record record;
    record.kind = 6;
    record.tx = tx;
    record.row = row;
    record.key = key;
    record.key_size = key_size;
    record.before = before;
    record.pages[0].page = leaf;
    return c_written(&record, out, room);
}

__attribute__((noinline)) static size_t c_write_write(uint64_t tx, uint64_t row, const uint8_t *key, size_t key_size, bool before,
                                                      bool after, uint32_t leaf, const uint8_t *image, uint8_t *out, size_t room) {
    Record record;
    record.kind = 2;
    record.tx = tx;
    record.row = row;
    record.key = key;
    record.key_size = key_size;
    record.before = before;
    record.after = after;
    record.pages[0].page = leaf;
    record.pages[0].image = image;
    return c_written(&record, out, room);
}

static bool all_zero(const uint8_t *bytes, size_t count) {
    static const uint8_t zeros[4096];
    return memcmp(bytes, zeros, count) == 0;
}

// The number of the page whose image the bytes are, or -1.
static int64_t checked(const uint8_t *image) {
    if (!all_zero(image + 6, 2) || !all_zero(image + 24, 8))
        return -1;
    uint32_t count = u16_at(image + 2), start = u16_at(image + 4), end = PAGE;
    if (32 + 4 * count > PAGE)
        return -1;
    for (uint32_t slot = 0; slot < count; slot++) {
        uint32_t place = u16_at(image + 32 + 4 * slot), size = u16_at(image + 34 + 4 * slot);
        if (size == 0 || place + size != end)
            return -1;
        end = place;
    }
    if (start != end || start < 32 + 4 * count)
        return -1;
    if (!all_zero(image + 32 + 4 * count, start - 32 - 4 * count))
        return -1;
    return u32_at(image + 20);
}

// Reads a page from a least number on. The bytes that it took, or 0.
static size_t read_page(const uint8_t *bytes, size_t left, uint64_t least, Lent *page) {
    if (left < 4 + PAGE)
        return 0;
    page->page = u32_at(bytes);
    page->image = bytes + 4;
    if (page->page < least || checked(page->image) != (int64_t)page->page)
        return 0;
    return 4 + PAGE;
}

static size_t read_pages(const uint8_t *bytes, size_t left, Record *record) {
    if (left < 13)
        return 0;
    record->counter = u64_at(bytes);
    record->used = u32_at(bytes + 8);
    record->count = bytes[12];
    if (record->count < 1 || record->count > 3)
        return 0;
    size_t at = 13;
    uint64_t least = 0;
    for (uint32_t i = 0; i < record->count; i++) {
        size_t size = read_page(bytes + at, left - at, least, &record->pages[i]);
        if (size == 0)
            return 0;
        at += size;
        least = (uint64_t)record->pages[i].page + 1;
    }
    return at;
}

static bool read_mark(uint8_t byte, bool *mark) {
    *mark = byte == 1;
    return byte <= 1;
}

// Reads a record of one kind after the byte for it. The bytes that it took with that byte, or 0.
static size_t read_record(const uint8_t *bytes, size_t left, size_t key, Record *record) {
    if (left == 0)
        return 0;
    record->kind = *bytes++;
    left--;
    size_t size;
    switch (record->kind) {
    case 1:
        size = read_pages(bytes, left, record);
        return size == 0 ? 0 : 1 + size;
    case 2:
    case 6:
        if (left < 16 + key + 1)
            return 0;
        record->tx = u64_at(bytes);
        record->row = u64_at(bytes + 8);
        record->key = bytes + 16;
        record->key_size = key;
        if (!read_mark(bytes[16 + key], &record->before))
            return 0;
        if (record->kind == 6) {
            if (left < 21 + key)
                return 0;
            record->pages[0].page = u32_at(bytes + 17 + key);
            return 22 + key;
        }
        if (left < 18 + key || !read_mark(bytes[17 + key], &record->after))
            return 0;
        size = read_page(bytes + 18 + key, left - 18 - key, 0, &record->pages[0]);
        return size == 0 ? 0 : 19 + key + size;
    case 3:
        if (left < 16)
            return 0;
        record->tx = u64_at(bytes);
        record->n = u64_at(bytes + 8);
        return 17;
    case 4:
        if (left < 8)
            return 0;
        record->tx = u64_at(bytes);
        return 9;
    case 5:
        if (left < 28)
            return 0;
        record->n = u64_at(bytes);
        record->counter = u64_at(bytes + 8);
        record->used = u32_at(bytes + 16);
        record->next = u64_at(bytes + 20);
        return 29;
    default:
        return 0;
    }
}

static Record kept;

__attribute__((noinline)) static size_t c_read(const uint8_t *bytes, size_t count, size_t key) {
    size_t at = 0, size;
    while ((size = read_record(bytes + at, count - at, key, &kept)) != 0)
        at += size;
    return at;
}

// ---- the records

static uint64_t state;

static uint64_t drawn(void) {
    state ^= state << 13;
    state ^= state >> 7;
    state ^= state << 17;
    return state * UINT64_C(2685821657736338717);
}

static uint64_t below(uint64_t bound) {
    return (drawn() >> 16) % bound;
}

// A number of few or many bits.
static uint64_t number(void) {
    return drawn() >> below(64);
}

// The image of a leaf with so many entries of 25 bytes.
static void draw_image(uint8_t *image, uint32_t page, uint32_t count) {
    memset(image, 0, PAGE);
    uint32_t start = PAGE - ENTRY * count;
    image[2] = (uint8_t)(count >> 8);
    image[3] = (uint8_t)count;
    image[4] = (uint8_t)(start >> 8);
    image[5] = (uint8_t)start;
    put_u64(image + 8, number());
    put_u32(image + 16, (uint32_t)number());
    put_u32(image + 20, page);
    for (uint32_t slot = 0; slot < count; slot++) {
        uint32_t place = PAGE - ENTRY * (slot + 1);
        uint8_t *at = image + 32 + 4 * slot;
        at[0] = (uint8_t)(place >> 8);
        at[1] = (uint8_t)place;
        at[3] = ENTRY;
    }
    for (uint32_t i = start; i < PAGE; i++)
        image[i] = (uint8_t)drawn();
}

typedef struct {
    uint64_t tx, row;
    uint8_t key[KEY];
    bool before, after;
    uint32_t leaf;
    uint8_t image[PAGE];
} Given;

static Given given[RECORDS];

static void draw_given(uint32_t entries) {
    for (int i = 0; i < RECORDS; i++) {
        Given *g = &given[i];
        g->tx = number();
        g->row = number();
        for (int k = 0; k < KEY; k++)
            g->key[k] = (uint8_t)drawn();
        g->before = below(2);
        g->after = below(2);
        g->leaf = (uint32_t)number();
        draw_image(g->image, g->leaf, entries);
    }
}

enum Kind { COMMITS, NOTES, WRITES, PAGES, KINDS };

static uint8_t streams[2][STREAM];

// Three pages in a record, by C alone.
static size_t write_pages(uint8_t *out) {
    static uint8_t image[PAGE];
    uint32_t least = 0, count = 1 + (uint32_t)below(3);
    *out = 1;
    uint8_t *at = put_u32(put_u64(out + 1, number()), (uint32_t)number());
    *at++ = (uint8_t)count;
    for (uint32_t i = 0; i < count; i++) {
        uint32_t page = least + (uint32_t)below(1000);
        draw_image(image, page, (uint32_t)below(101));
        at = put_bytes(put_u32(at, page), image, PAGE);
        least = page + 1;
    }
    return (size_t)(at - out);
}

static size_t c_stream(enum Kind kind, uint8_t *out) {
    size_t at = 0;
    for (int i = 0; i < RECORDS; i++) {
        const Given *g = &given[i];
        if (kind == COMMITS)
            at += c_write_commit(g->tx, g->row, out + at, STREAM - at);
        else if (kind == NOTES)
            at += c_write_note(g->tx, g->row, g->key, KEY, g->before, g->leaf, out + at, STREAM - at);
        else
            at += c_write_write(g->tx, g->row, g->key, KEY, g->before, g->after, g->leaf, g->image, out + at, STREAM - at);
    }
    return at;
}

static size_t proved_stream(enum Kind kind, uint8_t *out) {
    size_t at = 0;
    for (int i = 0; i < RECORDS; i++) {
        const Given *g = &given[i];
        if (kind == COMMITS)
            at += gx_bench_write_commit(g->tx, g->row, out + at, STREAM - at);
        else if (kind == NOTES)
            at += gx_bench_write_note(g->tx, g->row, g->key, KEY, g->before, g->leaf, out + at, STREAM - at);
        else
            at += gx_bench_write_write(g->tx, g->row, g->key, KEY, g->before, g->after, g->leaf, g->image, PAGE, out + at, STREAM - at);
    }
    return at;
}

static void fail(const char *what, int number) {
    printf("%s differ at %d\n", what, number);
    exit(1);
}

static void compare_all(void) {
    int stopped = 0;
    for (int number = 0; number < COMPARED; number++) {
        enum Kind kind = (enum Kind)(number % KINDS);
        size_t size = 0;
        if (number % 64 < KINDS)
            draw_given((uint32_t)below(101));
        if (kind == PAGES) {
            for (int i = 0; i < 4; i++)
                size += write_pages(streams[0] + size);
        } else {
            size = c_stream(kind, streams[0]);
            if (proved_stream(kind, streams[1]) != size || memcmp(streams[0], streams[1], size) != 0)
                fail("written records", number);
        }
        if (c_read(streams[0], size, KEY) != size || gx_bench_read(streams[0], size, KEY) != size)
            fail("records read", number);
        // one byte in the first records changed, or the end cut off
        size_t reach = size < 12000 ? size : 12000;
        if (below(4) == 0)
            size = below(reach);
        else
            streams[0][below(4) == 0 ? below(reach) : below(reach < 120 ? reach : 120)] ^= (uint8_t)(1u << below(8));
        size_t far = c_read(streams[0], size, KEY);
        if (gx_bench_read(streams[0], size, KEY) != far)
            fail("spoiled records read", number);
        stopped += far != size;
    }
    printf("equal at %d streams of records, and at as many with a byte changed or cut off, of which %d end before their end\n", COMPARED, stopped);
}

static double seconds(void) {
    struct timespec now;
    clock_gettime(CLOCK_PROCESS_CPUTIME_ID, &now);
    return (double)now.tv_sec + (double)now.tv_nsec * 1e-9;
}

static size_t sum;

static double time_write(size_t (*stream)(enum Kind, uint8_t *), enum Kind kind, int repeats) {
    double from = seconds();
    for (int i = 0; i < repeats; i++)
        sum += stream(kind, streams[1]);
    return seconds() - from;
}

static double time_read(size_t (*read)(const uint8_t *, size_t, size_t), size_t size, int repeats) {
    double from = seconds();
    for (int i = 0; i < repeats; i++)
        sum += read(streams[0], size, KEY);
    return seconds() - from;
}

static void report(const char *name, double records, double c, double proved) {
    printf("%-38s C %12.0f a second, proved %12.0f, ratio %.2f\n", name, records / c, records / proved, c / proved);
}

static double lesser(double a, double b) {
    return a < b ? a : b;
}

static void time_kind(enum Kind kind, const char *name, int repeats) {
    char what[64];
    double c = 1e9, proved = 1e9, records = (double)RECORDS * repeats;
    if (kind == PAGES) {
        size_t size = 0;
        for (int i = 0; i < RECORDS; i++)
            size += write_pages(streams[0] + size);
        for (int round = 0; round < ROUNDS; round++) {
            c = lesser(c, time_read(c_read, size, repeats));
            proved = lesser(proved, time_read(gx_bench_read, size, repeats));
        }
    } else {
        for (int round = 0; round < ROUNDS; round++) {
            c = lesser(c, time_write(c_stream, kind, repeats));
            proved = lesser(proved, time_write(proved_stream, kind, repeats));
        }
        snprintf(what, sizeof what, "%s, written", name);
        report(what, records, c, proved);
        size_t size = c_stream(kind, streams[0]);
        c = proved = 1e9;
        for (int round = 0; round < ROUNDS; round++) {
            c = lesser(c, time_read(c_read, size, repeats));
            proved = lesser(proved, time_read(gx_bench_read, size, repeats));
        }
    }
    snprintf(what, sizeof what, "%s, read", name);
    report(what, records, c, proved);
}

int main(int count, char **words) {
    state = count > 1 ? strtoull(words[1], NULL, 10) : 20250101;
    if (state == 0)
        state = 1;
    compare_all();
    printf("%d records of a kind, best of %d rounds, alternating\n", RECORDS, ROUNDS);
    draw_given(100);
    time_kind(COMMITS, "commits", REPEATS * 100);
    time_kind(NOTES, "notes", REPEATS * 100);
    time_kind(WRITES, "writes to leaves of 100 entries", REPEATS);
    draw_given(50);
    time_kind(WRITES, "writes to leaves of 50 entries", REPEATS);
    time_kind(PAGES, "1 to 3 pages of 0 to 100 entries", REPEATS);
    return sum == 1;
}
