// A tree of boxes in plain C, beside the proved steps of gx_bench_runs: the same rules over the same pages of 4,096 bytes.
// The arguments are what is asked and how often: `inserts`, so many boxes in a new tree; `pages`, the same, and a sum of all
// pages' bytes; `queries`, so many windows looked for in a tree of a hundred thousand boxes; `marks`, so many of its pairs
// looked for and marked. It prints a sum of what was done.
// No other session is at work, but each page that is read is tested as if one were: whether it is taken, and whether it
// was split since its number was read.
#include <stdbool.h>
#include <stdint.h>
#include <stdio.h>
#include <stdlib.h>
#include <string.h>

// How the four tests of a box are put together: one after another with jumps, or, with -D'AND=&', all without.
#ifndef AND
#define AND &&
#endif

enum { PAGE = 4096, PAGES = 8194, HEADER = 32, SLOT = 4, KEY = 16, PAIR = 25, CHILD = 20, MOST = 100, LEAST = 40 };
enum { PLANE = 1048576, BOX = 1024, WINDOW = 10000, BOXES = 100000 };

typedef struct {
    int32_t x1, y1, x2, y2;
} Box;

typedef struct {
    uint64_t row;
    Box key;
} Entry;

// A page that is to be read, and the counter of splits at the time when the page's number was read.
typedef struct {
    uint32_t page;
    uint64_t seen;
} Item;

typedef struct {
    Entry entry;
    bool marked;
    uint32_t leaf;
} Found;

static uint8_t pages[PAGES + 1][PAGE]; // there is no page 0
static uint32_t used;
static uint64_t counter;

static void stop(const char *what) {
    fprintf(stderr, "%s\n", what);
    exit(1);
}

// ---- numbers and keys in bytes

static uint32_t u16_at(const uint8_t *at) {
    uint16_t n;
    memcpy(&n, at, 2);
    return __builtin_bswap16(n);
}

static uint32_t u32_at(const uint8_t *at) {
    uint32_t n;
    memcpy(&n, at, 4);
    return __builtin_bswap32(n);
}

static uint64_t u64_at(const uint8_t *at) {
    uint64_t n;
    memcpy(&n, at, 8);
    return __builtin_bswap64(n);
}

static void put_u16(uint8_t *at, uint32_t n) {
    uint16_t swapped = __builtin_bswap16((uint16_t)n);
    memcpy(at, &swapped, 2);
}

static void put_u32(uint8_t *at, uint32_t n) {
    n = __builtin_bswap32(n);
    memcpy(at, &n, 4);
}

static void put_u64(uint8_t *at, uint64_t n) {
    n = __builtin_bswap64(n);
    memcpy(at, &n, 8);
}

static int32_t number(const uint8_t *at) {
    return (int32_t)u32_at(at);
}

static Box box_at(const uint8_t *at) {
    return (Box){number(at), number(at + 4), number(at + 8), number(at + 12)};
}

static void put_box(uint8_t *at, Box b) {
    put_u32(at, (uint32_t)b.x1);
    put_u32(at + 4, (uint32_t)b.y1);
    put_u32(at + 8, (uint32_t)b.x2);
    put_u32(at + 12, (uint32_t)b.y2);
}

// ---- boxes

static uint64_t area(Box b) {
    return (uint64_t)((int64_t)b.x2 - b.x1) * (uint64_t)((int64_t)b.y2 - b.y1);
}

static Box joined(Box a, Box b) {
    return (Box){
        a.x1 < b.x1 ? a.x1 : b.x1,
        a.y1 < b.y1 ? a.y1 : b.y1,
        a.x2 > b.x2 ? a.x2 : b.x2,
        a.y2 > b.y2 ? a.y2 : b.y2,
    };
}

static uint64_t growth(Box cover, Box key) {
    return area(joined(cover, key)) - area(cover);
}

static bool are_same(Box a, Box b) {
    return a.x1 == b.x1 && a.y1 == b.y1 && a.x2 == b.x2 && a.y2 == b.y2;
}

static bool overlaps_at(const uint8_t *at, const Box *q) {
    return (number(at) <= q->x2) AND (number(at + 4) <= q->y2) AND (q->x1 <= number(at + 8)) AND (q->y1 <= number(at + 12));
}

static bool equals_at(const uint8_t *at, const Box *q) {
    return (number(at) == q->x1) AND (number(at + 4) == q->y1) AND (number(at + 8) == q->x2) AND (number(at + 12) == q->y2);
}

static bool covers_at(const uint8_t *at, const Box *q) {
    return (number(at) <= q->x1) AND (number(at + 4) <= q->y1) AND (q->x2 <= number(at + 8)) AND (q->y2 <= number(at + 12));
}

// ---- pages: the level, the count of items, where they start, the sequence number, the rightlink, the page's own number

static uint32_t level_of(const uint8_t *page) {
    return u16_at(page);
}

static uint32_t count_of(const uint8_t *page) {
    return u16_at(page + 2);
}

static uint64_t nsn_of(const uint8_t *page) {
    return u64_at(page + 8);
}

static uint32_t right_of(const uint8_t *page) {
    return u32_at(page + 16);
}

static void link_page(uint8_t *page, uint64_t nsn, uint32_t right) {
    put_u64(page + 8, nsn);
    put_u32(page + 16, right);
}

static void clear_page(uint8_t *page, uint32_t level, uint32_t number) {
    memset(page, 0, PAGE);
    put_u16(page, level);
    put_u16(page + 4, PAGE);
    put_u32(page + 20, number);
}

static uint32_t size_in(const uint8_t *page) {
    return level_of(page) == 0 ? PAIR : CHILD;
}

// A slot's item: the items lie from the page's end down, all of one size.
static uint8_t *item_at(uint8_t *page, uint32_t size, uint32_t slot) {
    return page + PAGE - size * (slot + 1);
}

// A new last item, whose bytes are to be written.
static uint8_t *append_item(uint8_t *page, uint32_t size) {
    uint32_t slot = count_of(page), place = PAGE - size * (slot + 1);
    put_u16(page + HEADER + SLOT * slot, place);
    put_u16(page + HEADER + SLOT * slot + 2, size);
    put_u16(page + 2, slot + 1);
    put_u16(page + 4, place);
    return page + place;
}

static void append_child(uint8_t *page, Box bound, uint32_t child) {
    uint8_t *item = append_item(page, CHILD);
    put_box(item, bound);
    put_u32(item + KEY, child);
}

static void append_pair(uint8_t *page, const Entry *entry) {
    uint8_t *item = append_item(page, PAIR);
    put_box(item, entry->key);
    put_u64(item + KEY, entry->row);
    item[KEY + 8] = 0;
}

// Leaves the items of one side; all other bytes are zero then, as on a page that never had more.
static void keep_side(uint8_t *page, const bool *sides, bool side) {
    uint32_t size = size_in(page), count = count_of(page), kept = 0;
    for (uint32_t slot = 0; slot < count; slot++)
        if (sides[slot] == side)
            memmove(item_at(page, size, kept++), item_at(page, size, slot), size);
    memset(page + PAGE - size * count, 0, size * (count - kept));
    memset(page + HEADER + SLOT * kept, 0, SLOT * (count - kept));
    put_u16(page + 2, kept);
    put_u16(page + 4, PAGE - size * kept);
}

// A page that is named.
static uint8_t *named(uint32_t page) {
    if (page == 0 || used < page)
        stop("a page that isn't taken");
    return pages[page];
}

// Takes the next page: a copy with the items of one side.
static uint32_t take_side(const uint8_t *from, const bool *sides, bool side) {
    if (used == PAGES)
        stop("no page is left");
    uint8_t *page = pages[++used];
    memcpy(page, from, PAGE);
    put_u32(page + 20, used);
    keep_side(page, sides, side);
    return used;
}

static void fresh_tree(void) {
    memset(pages, 0, sizeof pages);
    used = 2;
    clear_page(pages[1], 1, 1);
    clear_page(pages[2], 0, 2);
    append_child(pages[1], (Box){0, 0, 0, 0}, 2);
}

// ---- the quadratic split (Guttman 1984)

typedef __int128 Wide;

// The first of the pairs that waste most.
static void worst_pair(const Box *boxes, size_t count, size_t *lower, size_t *higher) {
    uint64_t areas[MOST];
    for (size_t i = 0; i < count; i++)
        areas[i] = area(boxes[i]);
    bool found = false;
    Wide worst = 0;
    for (size_t i = 0; i + 1 < count; i++) {
        for (size_t j = i + 1; j < count; j++) {
            Wide waste = (Wide)area(joined(boxes[i], boxes[j])) - areas[i] - areas[j];
            if (!found || waste > worst) {
                found = true;
                worst = waste;
                *lower = i;
                *higher = j;
            }
        }
    }
}

// A slot that waits, and how much the cover of each group grows by its box.
typedef struct {
    size_t slot;
    uint64_t grows[2];
} Waiting;

// The place of the first slot at which the growths are farthest apart.
static size_t farthest(const Waiting *waiting, size_t left) {
    size_t place = 0;
    uint64_t greatest = 0;
    for (size_t k = 0; k < left; k++) {
        uint64_t a = waiting[k].grows[0], b = waiting[k].grows[1];
        uint64_t apart = a > b ? a - b : b - a;
        if (apart > greatest) {
            greatest = apart;
            place = k;
        }
    }
    return place;
}

static int chosen_side(const Waiting *next, const Box *covers, const size_t *counts, size_t left) {
    if (counts[0] + left <= LEAST)
        return 0;
    if (counts[1] + left <= LEAST)
        return 1;
    if (next->grows[0] != next->grows[1])
        return next->grows[1] < next->grows[0];
    uint64_t first = area(covers[0]), second = area(covers[1]);
    if (first != second)
        return second < first;
    return counts[1] < counts[0];
}

// The side of each box, and what covers each side.
static void split_boxes(const Box *boxes, size_t count, bool *sides, Box *covers) {
    size_t lower = 0, higher = 1;
    worst_pair(boxes, count, &lower, &higher);
    covers[0] = boxes[lower];
    covers[1] = boxes[higher];
    size_t counts[2] = {1, 1};
    Waiting waiting[MOST];
    size_t left = 0;
    for (size_t slot = 0; slot < count; slot++) {
        if (slot != lower && slot != higher) {
            Waiting w = {slot, {growth(covers[0], boxes[slot]), growth(covers[1], boxes[slot])}};
            waiting[left++] = w;
        }
    }
    memset(sides, 0, count * sizeof *sides);
    sides[higher] = true;
    while (left > 0) {
        size_t place = farthest(waiting, left);
        Waiting next = waiting[place];
        int side = chosen_side(&next, covers, counts, left);
        left--;
        memmove(waiting + place, waiting + place + 1, (left - place) * sizeof *waiting);
        covers[side] = joined(covers[side], boxes[next.slot]);
        counts[side]++;
        sides[next.slot] = side;
        for (size_t k = 0; k < left; k++)
            waiting[k].grows[side] = growth(covers[side], boxes[waiting[k].slot]);
    }
}

// The sides of a node that has as many entries as it may, and what covers each side.
static void halve(uint8_t *page, bool *sides, Box *covers) {
    Box keys[MOST];
    uint32_t size = size_in(page);
    for (uint32_t slot = 0; slot < MOST; slot++)
        keys[slot] = box_at(item_at(page, size, slot));
    split_boxes(keys, MOST, sides, covers);
}

// The root stays on page 1, a level higher, over two new pages.
static void split_root(void) {
    bool sides[MOST];
    Box covers[2];
    uint8_t *root = pages[1];
    halve(root, sides, covers);
    uint32_t first = take_side(root, sides, false), second = take_side(root, sides, true);
    link_page(pages[first], 0, second);
    link_page(pages[second], 0, 0);
    uint64_t nsn = nsn_of(root);
    uint32_t right = right_of(root);
    clear_page(root, level_of(root) + 1, 1);
    link_page(root, nsn, right);
    append_child(root, covers[0], first);
    append_child(root, covers[1], second);
}

// The slot of a child's entry, or the count.
static uint32_t slot_of(uint8_t *page, uint32_t child) {
    uint32_t count = count_of(page), slot = 0;
    while (slot < count && u32_at(item_at(page, CHILD, slot) + KEY) != child)
        slot++;
    return slot;
}

// The sibling gets the sequence number and the rightlink that the node had. Nothing is done if the parent has no place.
static void split_below(uint32_t number, uint32_t parent) {
    bool sides[MOST];
    Box covers[2];
    uint8_t *page = named(number), *above = named(parent);
    uint32_t slot = slot_of(above, number);
    if (count_of(above) >= MOST || slot == count_of(above))
        return;
    halve(page, sides, covers);
    uint32_t sibling = take_side(page, sides, true);
    keep_side(page, sides, false);
    link_page(page, ++counter, sibling);
    put_box(item_at(above, CHILD, slot), covers[0]);
    append_child(above, covers[1], sibling);
}

static void split(uint32_t page, uint32_t parent) {
    if (page == 1)
        split_root();
    else
        split_below(page, parent);
}

// ---- inserts

// The slot of the bound that grows least by a key, of such bounds the smallest, and of those the first.
static uint32_t least_penalty(const uint8_t *page, Box key) {
    const uint8_t *item = page + PAGE;
    uint32_t count = count_of(page), best = 0;
    uint64_t least_growth = UINT64_MAX, least_area = UINT64_MAX;
    for (uint32_t slot = 0; slot < count; slot++) {
        item -= CHILD;
        Box bound = box_at(item);
        uint64_t size = area(bound), grows = area(joined(bound, key)) - size;
        if (grows < least_growth || (grows == least_growth && size < least_area)) {
            least_growth = grows;
            least_area = size;
            best = slot;
        }
    }
    return best;
}

// Takes the marked pairs out of a leaf, and says whether there were any.
static bool sweep(uint8_t *page) {
    bool sides[MOST], any = false;
    for (uint32_t slot = 0; slot < count_of(page); slot++)
        any |= sides[slot] = item_at(page, PAIR, slot)[KEY + 8] != 0;
    if (any)
        keep_side(page, sides, false);
    return any;
}

// Down to the child of least penalty, once its bound covers the key.
static Item child_for(uint8_t *page, Box key) {
    uint8_t *item = item_at(page, CHILD, least_penalty(page, key));
    Box bound = box_at(item), both = joined(bound, key);
    if (!are_same(bound, both))
        put_box(item, both);
    return (Item){u32_at(item + KEY), counter};
}

static void insert(const Entry *entry) {
    Item item = {1, counter};
    uint32_t parent = 1;
    for (;;) {
        uint8_t *page = named(item.page);
        if (nsn_of(page) > item.seen) {
            item = (Item){1, counter};
        } else if (count_of(page) >= MOST) {
            if (level_of(page) == 0 && sweep(page))
                continue;
            split(item.page, parent);
            item = (Item){1, counter};
        } else if (level_of(page) == 0) {
            append_pair(page, entry);
            return;
        } else {
            parent = item.page;
            item = child_for(page, entry->key);
        }
    }
}

// ---- looks

static Item stack[PAGES];
static Found *found;
static size_t found_count, found_room;

static void keep_found(Found one) {
    if (found_count == found_room) {
        found_room = found_room ? 2 * found_room : 16;
        found = realloc(found, found_room * sizeof *found);
        if (found == NULL)
            stop("no memory");
    }
    found[found_count++] = one;
}

// What a look finds: the live pairs that overlap a box, or the pair of this entry, live or marked.
typedef struct {
    Box box;
    const Entry *entry;
} Wanted;

static bool is_pair(const uint8_t *item, const Entry *entry) {
    return equals_at(item, &entry->key) && u64_at(item + KEY) == entry->row;
}

static Found found_at(const uint8_t *item, uint32_t leaf) {
    return (Found){{u64_at(item + KEY), box_at(item)}, item[KEY + 8] != 0, leaf};
}

static void gather(const uint8_t *page, uint32_t leaf, const Wanted *wanted) {
    const uint8_t *item = page + PAGE;
    Box box = wanted->box;
    if (wanted->entry) {
        for (uint32_t left = count_of(page); left > 0; left--) {
            item -= PAIR;
            if (is_pair(item, wanted->entry))
                keep_found(found_at(item, leaf));
        }
    } else {
        for (uint32_t left = count_of(page); left > 0; left--) {
            item -= PAIR;
            if (overlaps_at(item, &box) && item[KEY + 8] == 0)
                keep_found(found_at(item, leaf));
        }
    }
}

// Stacks the children below which something wanted may be, and returns how many items the stack has then.
static size_t descend(const uint8_t *page, const Wanted *wanted, size_t depth) {
    const uint8_t *item = page + PAGE;
    Box box = wanted->box;
    if (PAGES - depth < MOST)
        stop("too many items");
    if (wanted->entry) {
        for (uint32_t left = count_of(page); left > 0; left--) {
            item -= CHILD;
            if (covers_at(item, &box))
                stack[depth++] = (Item){u32_at(item + KEY), counter};
        }
    } else {
        for (uint32_t left = count_of(page); left > 0; left--) {
            item -= CHILD;
            if (overlaps_at(item, &box))
                stack[depth++] = (Item){u32_at(item + KEY), counter};
        }
    }
    return depth;
}

static void look(const Wanted *wanted) {
    size_t depth = 0;
    found_count = 0;
    stack[depth++] = (Item){1, counter};
    while (depth > 0) {
        Item item = stack[--depth];
        const uint8_t *page = named(item.page);
        if (nsn_of(page) > item.seen)
            stack[depth++] = (Item){right_of(page), item.seen};
        if (level_of(page) == 0)
            gather(page, item.page, wanted);
        else
            depth = descend(page, wanted, depth);
    }
}

static uint64_t query(Box window) {
    Wanted wanted = {window, NULL};
    uint64_t sum = 0;
    look(&wanted);
    for (size_t k = 0; k < found_count; k++)
        sum += found[k].entry.row + 1;
    return sum;
}

// Marks a pair, in the leaf in which it is found: its leaf, its slot and whether it was marked before, all added up.
static uint64_t mark(const Entry *entry) {
    Wanted wanted = {entry->key, entry};
    look(&wanted);
    if (found_count == 0)
        stop("a pair isn't found");
    uint32_t leaf = found[0].leaf;
    uint8_t *page = named(leaf);
    for (uint32_t slot = 0; slot < count_of(page); slot++) {
        uint8_t *item = item_at(page, PAIR, slot);
        if (is_pair(item, entry)) {
            uint64_t sum = (uint64_t)leaf + slot + item[KEY + 8];
            item[KEY + 8] = 1;
            return sum;
        }
    }
    stop("a pair is gone");
    return 0;
}

// ---- what is asked

static uint64_t draw(uint64_t *state) {
    *state = *state * UINT64_C(6364136223846793005) + UINT64_C(1442695040888963407);
    return *state >> 32;
}

static Box draw_box(uint64_t *state) {
    int32_t x = (int32_t)(draw(state) % PLANE), y = (int32_t)(draw(state) % PLANE);
    int32_t wide = (int32_t)(draw(state) % BOX), high = (int32_t)(draw(state) % BOX);
    return (Box){x, y, x + wide, y + high};
}

static Box draw_window(uint64_t *state) {
    int32_t x = (int32_t)(draw(state) % PLANE), y = (int32_t)(draw(state) % PLANE);
    return (Box){x, y, x + WINDOW, y + WINDOW};
}

static Entry *build(uint64_t boxes) {
    Entry *entries = malloc((boxes + 1) * sizeof *entries);
    uint64_t state = 7;
    if (entries == NULL)
        stop("no memory");
    fresh_tree();
    for (uint64_t row = 0; row < boxes; row++) {
        entries[row] = (Entry){row, draw_box(&state)};
        insert(&entries[row]);
    }
    return entries;
}

static uint64_t query_many(uint64_t queries) {
    uint64_t state = 11, sum = 0;
    for (uint64_t k = 0; k < queries; k++)
        sum += query(draw_window(&state));
    return sum;
}

static uint64_t mark_many(const Entry *entries, uint64_t marks) {
    uint64_t state = 13, sum = 0;
    for (uint64_t k = 0; k < marks; k++)
        sum += mark(&entries[draw(&state) % BOXES]);
    return sum;
}

static uint64_t sum_of_pages(void) {
    uint64_t sum = 0;
    for (uint32_t page = 1; page <= used; page++)
        for (size_t place = 0; place < PAGE; place++)
            sum = 31 * sum + pages[page][place];
    return sum;
}

int main(int words_count, char **words) {
    if (words_count != 3)
        return 2;
    const char *kind = words[1];
    uint64_t count = strtoull(words[2], NULL, 10), sum;
    bool inserts = strcmp(kind, "inserts") == 0, sums = strcmp(kind, "pages") == 0;
    Entry *entries = build(inserts || sums ? count : BOXES);
    if (inserts)
        sum = used;
    else if (sums)
        sum = sum_of_pages();
    else if (strcmp(kind, "queries") == 0)
        sum = query_many(count);
    else
        sum = mark_many(entries, count);
    free(entries);
    printf("%llu\n", (unsigned long long)sum);
    return 0;
}
