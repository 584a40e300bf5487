// The claims and predicates of eight sessions in plain C, beside the proved ones of gx_txn. It makes the same asks of
// full tables as the program gx_bench_runs and prints the same sum of answers. The arguments are what is asked, and how
// often.
#include <stdbool.h>
#include <stdint.h>
#include <stdio.h>
#include <stdlib.h>
#include <string.h>

enum { SESSIONS = 8, MOST_CLAIMS = 512, MOST_PREDICATES = 16 };

typedef struct {
    int32_t x1, y1, x2, y2;
} Box;

typedef struct {
    uint64_t row;
    Box key;
} Entry;

typedef enum { OVERLAP, WITHIN, EQUAL } Kind;

typedef struct {
    Kind kind;
    Box box;
} Query;

typedef struct {
    Entry claims[MOST_CLAIMS];
    size_t claim_count;
    Query predicates[MOST_PREDICATES];
    size_t predicate_count;
} Holding;

static int compare_boxes(const Box *a, const Box *b) {
    if (a->x1 != b->x1)
        return a->x1 < b->x1 ? -1 : 1;
    if (a->y1 != b->y1)
        return a->y1 < b->y1 ? -1 : 1;
    if (a->x2 != b->x2)
        return a->x2 < b->x2 ? -1 : 1;
    if (a->y2 != b->y2)
        return a->y2 < b->y2 ? -1 : 1;
    return 0;
}

static int compare(const Entry *a, const Entry *b) {
    if (a->row != b->row)
        return a->row < b->row ? -1 : 1;
    return compare_boxes(&a->key, &b->key);
}

static bool matches(const Query *q, const Box *key) {
    const Box *b = &q->box;
    switch (q->kind) {
    case OVERLAP:
        return key->x1 <= b->x2 && b->x1 <= key->x2 && key->y1 <= b->y2 && b->y1 <= key->y2;
    case WITHIN:
        return b->x1 <= key->x1 && key->x2 <= b->x2 && b->y1 <= key->y1 && key->y2 <= b->y2;
    default:
        return compare_boxes(key, b) == 0;
    }
}

// The first place whose entry isn't less.
static size_t place_of(const Holding *h, const Entry *e) {
    size_t low = 0, high = h->claim_count;
    while (low < high) {
        size_t middle = (low + high) / 2;
        if (compare(&h->claims[middle], e) < 0)
            low = middle + 1;
        else
            high = middle;
    }
    return low;
}

static bool has_claim(const Holding *h, const Entry *e) {
    size_t place = place_of(h, e);
    return place < h->claim_count && compare(&h->claims[place], e) == 0;
}

static bool watches(const Holding *h, const Entry *e) {
    for (size_t i = 0; i < h->predicate_count; i++)
        if (matches(&h->predicates[i], &e->key))
            return true;
    return false;
}

static bool claims_match(const Holding *h, const Query *q) {
    for (size_t i = 0; i < h->claim_count; i++)
        if (matches(q, &h->claims[i].key))
            return true;
    return false;
}

// What an ask is answered: 0 for yes, 8 for full, 9 for no place for a predicate, 10 more than the busy session.
static uint64_t ask_claim(Holding *table, int s, const Entry *e) {
    size_t held = 0;
    for (int other = 1; other <= SESSIONS; other++)
        if (other != s && (has_claim(&table[other - 1], e) || watches(&table[other - 1], e)))
            return 10 + other;
    for (int other = 0; other < SESSIONS; other++)
        held += table[other].claim_count;
    Holding *own = &table[s - 1];
    size_t place = place_of(own, e);
    if (place < own->claim_count && compare(&own->claims[place], e) == 0)
        return 0;
    if (held >= MOST_CLAIMS)
        return 8;
    memmove(&own->claims[place + 1], &own->claims[place], (own->claim_count - place) * sizeof(Entry));
    own->claims[place] = *e;
    own->claim_count++;
    return 0;
}

static uint64_t ask_predicate(Holding *table, int s, const Query *q) {
    for (int other = 1; other <= SESSIONS; other++)
        if (other != s && claims_match(&table[other - 1], q))
            return 10 + other;
    Holding *own = &table[s - 1];
    for (size_t i = 0; i < own->predicate_count; i++)
        if (own->predicates[i].kind == q->kind && compare_boxes(&own->predicates[i].box, &q->box) == 0)
            return 0;
    if (own->predicate_count >= MOST_PREDICATES)
        return 9;
    own->predicates[own->predicate_count++] = *q;
    return 0;
}

static uint64_t is_claimed(const Holding *table, const Entry *e) {
    for (int s = 0; s < SESSIONS; s++)
        if (has_claim(&table[s], e))
            return 1;
    return 0;
}

static uint32_t draw(uint32_t *state) {
    *state = *state * 1664525u + 1013904223u;
    return *state >> 8;
}

static Box key_of(uint32_t drawn) {
    int32_t x = (int32_t)(drawn % 1024), y = (int32_t)(drawn / 1024 % 1024);
    Box box = {x, y, x + 2, y + 2};
    return box;
}

static Query query_of(uint32_t state, int32_t y) {
    int32_t x = (int32_t)(state % 1024);
    Query query = {(Kind)(state / 1024 % 3), {x, y, x + 8, y + 8}};
    return query;
}

int main(int words, char **word) {
    static Holding table[SESSIONS];
    if (words != 3)
        return 2;
    uint64_t asks = strtoull(word[2], NULL, 10), sum = 0;
    uint32_t state = 7;
    for (uint32_t n = 0; n < MOST_CLAIMS; n++) {
        Entry e = {n * 37 % 1000, key_of(draw(&state))};
        sum += ask_claim(table, (int)(n % 8) + 1, &e);
    }
    for (uint32_t n = 0; n < SESSIONS * MOST_PREDICATES; n++) {
        Query q = query_of(draw(&state), 2000);
        sum += ask_predicate(table, (int)(n % 8) + 1, &q);
    }
    for (uint64_t n = 0; n < asks; n++) {
        uint32_t drawn = draw(&state);
        int s = (int)(drawn % 8) + 1;
        Entry e = {drawn / 8 % 1000, key_of(draw(&state))};
        Query q = query_of(drawn, 3000);
        if (strcmp(word[1], "claims") == 0)
            sum += ask_claim(table, s, &e);
        else if (strcmp(word[1], "searches") == 0)
            sum += ask_predicate(table, s, &q);
        else
            sum += is_claimed(table, &e);
    }
    printf("%llu\n", (unsigned long long)sum);
    return 0;
}
