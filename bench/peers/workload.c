/* The workload that all peers do: a seeded one, so that they find the same. Prints a line for each kind of work, its
   name, so many a second, and the microseconds of processor that each took; or so many bytes; and for each search that is
   compared a line with how many entries were found and the sum of their rows. Memory and processor time are those of the
   process and of all below it, and of a server, whose process PEER_PID names.

   The arguments are the index's path, one for a second index, how many entries are loaded, how many searches of some ten
   hits are made, and how many entries are added with a commit each. */
#define _GNU_SOURCE
#include "peers.h"

#include <dirent.h>
#include <pthread.h>
#include <stdio.h>
#include <stdlib.h>
#include <string.h>
#include <time.h>
#include <unistd.h>

/* Boxes have sides below SIDE in a plane in which some ten overlap a window of NEAR by NEAR. */
enum { SIDE = 64, NEAR = 170 };

static uint64_t state, hits, rows;
static int32_t plane;

static int32_t draw(int32_t below) {
    state = state * UINT64_C(6364136223846793005) + UINT64_C(1442695040888963407);
    return (int32_t)((state >> 32) % (uint64_t)below);
}

static pair draw_pair(uint64_t row) {
    int32_t x = draw(plane), y = draw(plane), wide = draw(SIDE), high = draw(SIDE);
    return (pair){row, x, y, x + wide, y + high};
}

/* The place of a pair along a curve that goes through near ones one after another: the bits of its corner in turn. */
static uint64_t along(const pair *it) {
    uint64_t place = 0;
    for (int bit = 0; bit < 31; bit++)
        place |= (uint64_t)(it->x1 >> bit & 1) << 2 * bit | (uint64_t)(it->y1 >> bit & 1) << (2 * bit + 1);
    return place;
}

static int compare_places(const void *one, const void *other) {
    uint64_t a = along(one), b = along(other);
    return (a > b) - (a < b);
}

/* Rows are mixed before they are added, so that two sums are the same only for the same rows. */
static void add(const pair *it) {
    uint64_t mixed = it->row * UINT64_C(0x9e3779b97f4a7c15);
    hits++;
    rows += mixed ^ mixed >> 29;
}

static double now(void) {
    struct timespec at;
    clock_gettime(CLOCK_MONOTONIC, &at);
    return (double)at.tv_sec + (double)at.tv_nsec / 1e9;
}

/* The private memory of a process, and its share of what it shares with others, in bytes. */
static uint64_t memory_of(long pid) {
    char path[64], line[256];
    unsigned long long bytes = 0;
    snprintf(path, sizeof path, "/proc/%ld/smaps_rollup", pid);
    FILE *it = fopen(path, "r");
    while (it && fgets(line, sizeof line, it))
        if (sscanf(line, "Pss: %llu kB", &bytes) == 1) break;
    if (it) fclose(it);
    return bytes * 1024;
}

/* The processor time that a process has taken, in nanoseconds. */
static uint64_t processor_of(long pid) {
    struct timespec at = {0};
    clockid_t its;
    if (clock_getcpuclockid((pid_t)pid, &its) == 0) clock_gettime(its, &at);
    return (uint64_t)at.tv_sec * 1000000000 + (uint64_t)at.tv_nsec;
}

/* What a process and all below it have together. */
static uint64_t sum_below(long pid, uint64_t (*of)(long)) {
    char path[64], line[256];
    uint64_t all = of(pid);
    long parent;
    DIR *processes = opendir("/proc");
    for (struct dirent *one; processes && (one = readdir(processes));) {
        snprintf(path, sizeof path, "/proc/%.20s/stat", one->d_name);
        FILE *it = NULL;
        if (one->d_name[0] < '1' || one->d_name[0] > '9' || !(it = fopen(path, "r"))) continue;
        if (fgets(line, sizeof line, it) && strrchr(line, ')') &&
            sscanf(strrchr(line, ')'), ") %*c %ld", &parent) == 1 && parent == pid)
            all += sum_below(atol(one->d_name), of);
        fclose(it);
    }
    if (processes) closedir(processes);
    return all;
}

static uint64_t sum_of_all(uint64_t (*of)(long)) {
    const char *server = getenv("PEER_PID");
    return sum_below(getpid(), of) + (server ? sum_below(atol(server), of) : 0);
}

/* When a work began. */
typedef struct start {
    double processor, clock;
} start;

static start begin(void) {
    double processor = (double)sum_of_all(processor_of) / 1e3;
    return (start){processor, now()};
}

static void tell(const char *work, size_t count, start from) {
    double clock = now() - from.clock, processor = (double)sum_of_all(processor_of) / 1e3 - from.processor;
    printf("%s\t%.1f\t%.3f\n", work, (double)count / clock, processor / (double)count);
}

static void change(const char *work, void (*by)(const pair *, size_t), const pair *pairs, size_t count) {
    start from = begin();
    for (size_t at = 0; at < count; at += BATCH) {
        peer_begin();
        by(pairs + at, count - at < BATCH ? count - at : BATCH);
        peer_commit();
    }
    tell(work, count, from);
}

static void search_each(const pair *windows, size_t count, void (*found)(const pair *)) {
    for (size_t i = 0; i < count; i++) peer_search(&windows[i], found);
}

/* Searches windows of this side, a transaction's by the function that is given, and says what was found. */
static void search_by(const char *work, void (*by)(const pair *, size_t, void (*)(const pair *)), size_t count,
                      int32_t side, uint64_t seed) {
    start from = begin();
    state = seed;
    hits = rows = 0;
    for (size_t at = 0; at < count; at += SEARCHES) {
        pair windows[SEARCHES];
        size_t many = count - at < SEARCHES ? count - at : SEARCHES;
        for (size_t i = 0; i < many; i++) {
            int32_t x = draw(plane - side), y = draw(plane - side);
            windows[i] = (pair){0, x, y, x + side, y + side};
        }
        peer_begin();
        by(windows, many, add);
        peer_abort();
    }
    tell(work, count, from);
    printf("= %s\t%llu %llu\n", work, (unsigned long long)hits, (unsigned long long)rows);
}

static void search(const char *work, size_t count, int32_t side, uint64_t seed) {
    search_by(work, search_each, count, side, seed);
}

typedef struct writer {
    pthread_t thread;
    unsigned number;
    /* whether it waits until no other writes */
    bool waits;
    const pair *pairs;
    size_t count;
} writer;

static pthread_mutex_t turn = PTHREAD_MUTEX_INITIALIZER;

static void *write_all(void *given) {
    const writer *it = (const writer *)given;
    for (size_t i = 0; i < it->count; i++) {
        if (it->waits) pthread_mutex_lock(&turn);
        peer_write(it->number, &it->pairs[i]);
        if (it->waits) pthread_mutex_unlock(&turn);
    }
    return NULL;
}

/* Adds entries with a commit each by several writers at once. */
static void write_at_once(const char *work, bool waits, const pair *pairs, size_t count) {
    unsigned many = peer_writers();
    writer all[16];
    start from = begin();
    for (unsigned i = 0; i < many; i++) {
        all[i] = (writer){.number = i, .waits = waits, .pairs = pairs + i * (count / many), .count = count / many};
        if (pthread_create(&all[i].thread, NULL, write_all, &all[i]) != 0) stop("thread", "none can be made");
    }
    for (unsigned i = 0; i < many; i++) pthread_join(all[i].thread, NULL);
    tell(work, count, from);
}

/* Adds entries with a commit each: by one writer, by several at once, and by as many that take turns. */
static void write_singly(const pair *pairs, size_t count) {
    if (peer_writers() == 0) {
        /* (so that the others' results stay comparable) */
        write_all(&(writer){.pairs = pairs, .count = 3 * count});
        return;
    }
    start from = begin();
    write_all(&(writer){.pairs = pairs, .count = count});
    tell("single commits", count, from);
    write_at_once("single commits of four writers", false, pairs + count, count);
    write_at_once("single commits of four writers in turn", true, pairs + 2 * count, count);
}

int main(int words_count, char **words) {
    if (words_count != 6) stop("usage", "PATH SECOND-PATH ENTRIES SEARCHES SINGLES");
    size_t count = strtoull(words[3], NULL, 10), searches = strtoull(words[4], NULL, 10),
           singles = strtoull(words[5], NULL, 10) / 4 * 4;
    pair *pairs = malloc((count + 3 * singles) * sizeof *pairs);
    if (!pairs) stop("memory", "there is none");
    /* the plane is of SIDE times the root of the count: a box for SIDE by SIDE */
    for (plane = 1; (uint64_t)plane * (uint64_t)plane < (uint64_t)SIDE * SIDE * count; plane++) continue;
    state = 1;
    for (size_t i = 0; i < count + 3 * singles; i++) pairs[i] = draw_pair(i + 1);
    /* a window with a tenth of all has some ten thousand of a hundred thousand */
    int32_t far = (int32_t)(0.316 * plane);
    uint64_t before = sum_below(getpid(), memory_of);
    peer_open(words[1], count, true);
    change("load, random order", peer_insert, pairs, count);
    printf("bytes on disk\t%llu\n", (unsigned long long)peer_bytes(words[1]));
    search("searches, ten hits", searches, NEAR, 2);
    search_by("searches, ten hits, by sixteen", peer_search_many, searches, NEAR, 2);
    search("searches, a tenth of all", searches / 500 + 1, far, 3);
    printf("bytes of memory\t%llu\n", (unsigned long long)(sum_of_all(memory_of) - before));
    change("deletes", peer_delete, pairs, count / 5);
    search("searches, after deletes", searches / 10, NEAR, 4);
    write_singly(pairs + count, singles);
    search("searches, after single commits", searches / 10, NEAR, 5);
    peer_close();
    peer_open(words[1], count, false);
    search("searches, opened again", searches / 10, NEAR, 6);
    peer_close();
    qsort(pairs, count, sizeof *pairs, compare_places);
    peer_open(words[2], count, true);
    change("load, local order", peer_insert, pairs, count);
    search("searches, after local order", searches / 10, NEAR, 7);
    peer_close();
    free(pairs);
    return 0;
}
