/* Times transactions in threads: `PEER KIND THREADS EACH PATH` makes an index anew, and has each thread work on it by a
   connection of its own, in a strip of its own.

   `single`: each thread commits so many inserts, one a transaction and in no order; `pair`: each after a search. The
   seconds that the threads took are printed.

   `paced`: the first thread commits so many inserts, while each of the others commits one and pauses for a millisecond;
   `reads`: the first commits without pause, while each of the others searches so often in one transaction. What they did
   is printed, as gx_threads_example prints it. */
#include "commits.h"

#include <pthread.h>
#include <stdatomic.h>
#include <string.h>
#include <time.h>

typedef enum kind { SINGLE, PAIR, PACED, READS } kind;

static const char *const KINDS[] = {"single", "pair", "paced", "reads"};

static kind wanted;
static int each;
/* how many threads are at work that end the run */
static atomic_int left;

typedef struct worker {
    pthread_t thread;
    long session;
    client *by;
    long commits;
    /* the nanoseconds that each of its reads took */
    long *reads;
} worker;

static long now(void) {
    struct timespec it;
    clock_gettime(CLOCK_MONOTONIC, &it);
    return it.tv_sec * 1000000000 + it.tv_nsec;
}

/* Commits so many times at most, and until nobody is left that has to end. */
static void commit(worker *it, long most, bool searches, bool pauses) {
    for (int turn = 0; turn < most && left > 0; turn++, it->commits++) {
        client_transact(it->by, it->session, turn % 8191 * 7919 % 8191 + turn / 8191 * 8191, searches);
        if (pauses) nanosleep(&(struct timespec){.tv_nsec = 1000000}, NULL);
    }
}

static void read_all(worker *it) {
    it->reads = malloc((size_t)each * sizeof *it->reads);
    if (!it->reads) stop("memory", "there is none");
    client_begin(it->by);
    for (int i = 0; i < each; i++) {
        long from = now();
        client_search(it->by, it->session);
        it->reads[i] = now() - from;
    }
    client_abort(it->by);
}

static void *work(void *given) {
    worker *it = given;
    bool is_first = it->session == 1;
    if (wanted == READS && !is_first)
        read_all(it);
    else if (wanted == READS || (wanted == PACED && !is_first))
        commit(it, 1000000, false, wanted == PACED);
    else
        commit(it, each, wanted == PAIR, false);
    if (wanted != READS && wanted != PACED) return NULL;
    if (is_first == (wanted == PACED)) left--;
    return NULL;
}

static int compare(const void *one, const void *other) {
    long a = *(const long *)one, b = *(const long *)other;
    return (a > b) - (a < b);
}

/* Prints what was done in these nanoseconds. */
static void tell(const worker *all, int threads, long took) {
    size_t count = wanted == READS ? (size_t)(threads - 1) * (size_t)each : 0;
    long others = 0, *reads = malloc((count + 1) * sizeof *reads);
    if (!reads) stop("memory", "there is none");
    for (int i = 1; i < threads; i++) {
        others += all[i].commits;
        if (count) memcpy(reads + (size_t)(i - 1) * (size_t)each, all[i].reads, (size_t)each * sizeof *reads);
    }
    qsort(reads, count, sizeof *reads, compare);
    printf("%ld commits, %ld beside, %zu reads in %ld microseconds\n", all->commits, others, count, took / 1000);
    printf("the slowest hundredth of the reads from %ld nanoseconds on\n", count ? reads[count - count / 100 - 1] : 0);
    free(reads);
}

int main(int count, char **words) {
    worker all[64];
    if (count != 5) stop("usage", "KIND THREADS EACH PATH");
    for (wanted = SINGLE; wanted < READS && strcmp(KINDS[wanted], words[1]) != 0; wanted++) continue;
    int threads = atoi(words[2]);
    each = atoi(words[3]);
    left = wanted == READS ? threads - 1 : 1;
    client *first = client_open(words[4], true);
    for (int i = 0; i < threads; i++) all[i] = (worker){.session = i + 1, .by = client_open(words[4], false)};
    long from = now();
    for (int i = 0; i < threads; i++)
        if (pthread_create(&all[i].thread, NULL, work, &all[i]) != 0) stop("thread", "none can be made");
    for (int i = 0; i < threads; i++) pthread_join(all[i].thread, NULL);
    long took = now() - from;
    if (wanted == PACED || wanted == READS)
        tell(all, threads, took);
    else
        printf("%f\n", (double)took / 1e9);
    for (int i = 0; i < threads; i++) {
        client_close(all[i].by);
        free(all[i].reads);
    }
    client_close(first);
    return 0;
}
