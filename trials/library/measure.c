/* Measures the library.

   usage: measure commits THREADS N TIME: N commits of an insert each by each of so many threads, by the system's own
          syncs, each of which takes so many microseconds more.
          measure searches N: N searches that find ten entries each, among 100,000. */
#define _GNU_SOURCE
#include "../../c/gist.h"

#include <errno.h>
#include <pthread.h>
#include <stdatomic.h>
#include <stdbool.h>
#include <stdlib.h>
#include <string.h>
#include <time.h>
#include <unistd.h>

enum { SESSIONS = 8, ENTRIES = 100000, SIDE = 316 };

static gist_index *common;
static unsigned each, more_time;
static atomic_uint syncs;

int __real_fdatasync(int fd);

/* The linker puts this in the place of fdatasync. */
int __wrap_fdatasync(int fd) {
    syncs++;
    if (more_time) usleep(more_time);
    return __real_fdatasync(fd);
}

/* Ends the process where something doesn't hold. */
static void must(bool holds, const char *what) {
    if (holds) return;
    fprintf(stderr, "measure: %s: %s\n", what, strerror(errno));
    _exit(2);
}
#define MUST(what) must(what, #what)

static double now(void) {
    struct timespec it;
    clock_gettime(CLOCK_MONOTONIC, &it);
    return (double)it.tv_sec + (double)it.tv_nsec * 1e-9;
}

static gist_box box_of(uint64_t row) {
    int32_t x = (int32_t)(row % SIDE) * 10, y = (int32_t)(row / SIDE) * 10;
    return (gist_box){x, y, x + 5, y + 5};
}

static void *commits(void *its) {
    unsigned session = *(unsigned *)its;
    for (uint64_t i = 0; i < each; i++) {
        uint64_t row = session * 1000000 + i;
        MUST(gist_begin(common, session) == GIST_OK && gist_insert(common, session, row, box_of(row)) == GIST_OK);
        MUST(gist_commit(common, session, NULL) == GIST_OK);
    }
    return NULL;
}

static void measure_commits(unsigned threads) {
    pthread_t all[SESSIONS];
    unsigned sessions[SESSIONS];
    MUST(gist_format(NULL, "it", 4096, 100, GIST_OVERWRITE, NULL) == GIST_OK);
    MUST(gist_open(&common, NULL, "it", 0, NULL) == GIST_OK);
    syncs = 0;
    double from = now();
    for (unsigned i = 0; i < threads; i++) {
        sessions[i] = i + 1;
        MUST(pthread_create(&all[i], NULL, commits, &sessions[i]) == 0);
    }
    for (unsigned i = 0; i < threads; i++) MUST(pthread_join(all[i], NULL) == 0);
    double took = now() - from, many = threads * each;
    printf("%u threads: %.0f commits a second, %.2f syncs a commit\n", threads, many / took, syncs / many);
    MUST(gist_close(common, NULL) == GIST_OK);
}

static void measure_searches(unsigned searches) {
    const gist_entry *found;
    size_t count, hits = 0;
    unsigned random = 1;
    MUST(gist_format(NULL, "it", 4096, 100, GIST_OVERWRITE, NULL) == GIST_OK);
    MUST(gist_open(&common, NULL, "it", 0, NULL) == GIST_OK);
    for (uint64_t row = 0; row < ENTRIES;) {
        MUST(gist_begin(common, 1) == GIST_OK);
        for (unsigned i = 0; i < 500; i++, row++) MUST(gist_insert(common, 1, row, box_of(row)) == GIST_OK);
        MUST(gist_commit(common, 1, NULL) == GIST_OK);
    }
    double from = now();
    for (unsigned i = 0; i < searches;) {
        MUST(gist_begin(common, 1) == GIST_OK);
        for (unsigned j = 0; j < 16 && i < searches; i++, j++) {
            int32_t x = rand_r(&random) % (SIDE - 5) * 10, y = rand_r(&random) % (SIDE - 5) * 10;
            gist_box box = {x, y, x + 45, y + 15};
            MUST(gist_search(common, 1, GIST_OVERLAP, box, &found, &count) == GIST_OK);
            hits += count;
        }
        MUST(gist_abort(common, 1) == GIST_OK);
    }
    double took = now() - from;
    printf("%.0f searches a second, of %.1f hits\n", searches / took, (double)hits / searches);
    MUST(gist_close(common, NULL) == GIST_OK);
}

int main(int count, char **words) {
    bool is_commits = count == 5 && strcmp(words[1], "commits") == 0;
    MUST(is_commits || (count == 3 && strcmp(words[1], "searches") == 0));
    each = (unsigned)atoi(words[is_commits ? 3 : 2]);
    if (is_commits) more_time = (unsigned)atoi(words[4]);
    if (is_commits) measure_commits((unsigned)atoi(words[2]));
    else measure_searches(each);
    return 0;
}
