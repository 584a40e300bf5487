/* Tests of the library in threads, after a fork, and amid signals and kills. */
#define _GNU_SOURCE
#include "../test.h"

#include <errno.h>
#include <pthread.h>
#include <signal.h>
#include <stdatomic.h>
#include <stdlib.h>
#include <string.h>
#include <sys/mman.h>
#include <sys/wait.h>
#include <unistd.h>

enum { SESSIONS = 8, EACH = 100, FORKS = 200 };

static gist_index *common;
static atomic_bool is_over;

/* Starts a thread for each session, and waits for the ends of all. */
static void in_threads(void *(*work)(void *)) {
    pthread_t all[SESSIONS];
    unsigned numbers[SESSIONS];
    for (unsigned i = 0; i < SESSIONS; i++) {
        numbers[i] = i + 1;
        HOLDS(pthread_create(&all[i], NULL, work, &numbers[i]) == 0);
    }
    for (int i = 0; i < SESSIONS; i++) HOLDS(pthread_join(all[i], NULL) == 0);
}

static int commit_one(unsigned session, uint64_t row, uint64_t *number) {
    gist_entry it = entry_of(row);
    int status = gist_begin(common, session);
    if (status == GIST_OK) status = gist_insert(common, session, it.row, it.box);
    return status == GIST_OK ? gist_commit(common, session, number) : status;
}

/* Commits rows of its own, numbered upwards. */
static void *commits(void *its) {
    unsigned session = *(unsigned *)its;
    uint64_t last = 0, number;
    for (uint64_t i = 0; i < EACH; i++) {
        number = 0;
        HOLDS(commit_one(session, EACH * (session - 1) + i, &number) == GIST_OK && number > last);
        last = number;
    }
    return NULL;
}

void shared(void) {
    common = fresh("shared", 512, 16);
    in_threads(commits);
    uint64_t number = 0;
    HOLDS(commit_one(1, SESSIONS * EACH, &number) == GIST_OK && number == SESSIONS * EACH + 1);
    HOLDS(gist_close(common, NULL) == GIST_OK && found_in("shared") == SESSIONS * EACH + 1);
}

/* Searches of a session's own rows; what they found stays while other sessions search. */
static void *searches_own(void *its) {
    unsigned session = *(unsigned *)its;
    gist_box boxes[20];
    gist_hits hits[20];
    const gist_entry *found;
    size_t count, done;
    for (int round = 0; round < 50; round++) {
        HOLDS(gist_begin(common, session) == GIST_OK);
        size_t many = 1 + session * 50, right = 0;
        gist_box box = {0, -5000, (int32_t)many * 10 - 5, 5000};
        HOLDS(gist_search(common, session, GIST_OVERLAP, box, &found, &count) == GIST_OK && count == many);
        sched_yield();
        while (right < count && is_entry(&found[right], right)) right++;
        HOLDS(right == many);
        for (int i = 0; i < 20; i++) boxes[i] = i % 2 ? box : entry_of(session).box;
        HOLDS(gist_search_many(common, session, GIST_OVERLAP, boxes, 20, hits, &done) == GIST_OK && done == 20);
        sched_yield();
        for (int i = 0; i < 20; i++) {
            size_t wanted = i % 2 ? many : 1;
            for (right = 0; right < hits[i].count; right++)
                if (!is_entry(&hits[i].found[right], i % 2 ? right : session)) break;
            HOLDS(hits[i].count == wanted && right == wanted);
        }
        HOLDS(gist_abort(common, session) == GIST_OK);
    }
    return NULL;
}

/* Each thread is in the way of another one, and learns which one is in its way. */
static void *is_busy(void *its) {
    unsigned session = *(unsigned *)its, other = session ^ 1;
    static atomic_uint ready, done;
    if (session > 7) other = 6;
    gist_entry own = entry_of(1000 + session), of_other = entry_of(1000 + other);
    HOLDS(gist_begin(common, session) == GIST_OK && gist_insert(common, session, own.row, own.box) == GIST_OK);
    for (ready++; ready < SESSIONS;) sched_yield();
    for (int i = 0; i < 200; i++) {
        int status = gist_insert(common, session, of_other.row, of_other.box);
        HOLDS(other == 0 || (status == GIST_BUSY && gist_busy(common) == other));
    }
    for (done++; done < SESSIONS;) sched_yield();
    HOLDS(gist_abort(common, session) == GIST_OK);
    return NULL;
}

void threads(void) {
    static gist_entry entries[500];
    common = fresh("threads", 512, 16);
    fill(entries, 0, 500);
    HOLDS(gist_begin(common, 1) == GIST_OK && gist_insert_many(common, 1, entries, 500, NULL) == GIST_OK);
    HOLDS(gist_commit(common, 1, NULL) == GIST_OK);
    in_threads(searches_own);
    in_threads(is_busy);
    HOLDS(gist_close(common, NULL) == GIST_OK && found_in("threads") == 500);
}

/* What a child makes of its parent's index. Returns which of it is wrong. */
static int child_of(gist_index *index) {
    const gist_entry *found;
    gist_index *own;
    size_t count;
    errno = 0;
    if (gist_insert(index, 1, 9, PLANE) != GIST_SYSTEM || errno != ECHILD) return 1;
    errno = 0;
    if (gist_search(index, 1, GIST_OVERLAP, PLANE, &found, &count) != GIST_SYSTEM || errno != ECHILD) return 2;
    if (gist_begin(index, 2) != GIST_SYSTEM || gist_commit(index, 1, NULL) != GIST_SYSTEM) return 3;
    if (gist_open(&own, NULL, "forked", 16, NULL) != GIST_DEVICE || own) return 4;
    if (gist_format(NULL, "own", 16, 4, GIST_OVERWRITE, NULL) != GIST_OK) return 5;
    if (gist_open(&own, NULL, "own", 16, NULL) != GIST_OK || gist_begin(own, 1) != GIST_OK) return 6;
    if (gist_insert(index, 1, 9, PLANE) != GIST_SYSTEM || gist_close(own, NULL) != GIST_OK) return 7;
    return gist_close(index, NULL) == GIST_OK ? 0 : 8;
}

static void *commits_on(void *its) {
    unsigned session = *(unsigned *)its;
    const gist_entry *found;
    size_t count;
    for (uint64_t i = 0; !is_over && i < 3000; i++) {
        if (session % 2) HOLDS(commit_one(session, 10000 * session + i, NULL) == GIST_OK);
        else
            HOLDS(gist_begin(common, session) == GIST_OK &&
                  gist_search(common, session, GIST_EQUAL, entry_of(0).box, &found, &count) == GIST_OK &&
                  gist_abort(common, session) == GIST_OK);
    }
    return NULL;
}

/* Forks while threads are in calls: each child closes the index at once. */
static void *forks(void *unused) {
    (void)unused;
    for (int i = 0; i < FORKS; i++) {
        int status = -1;
        pid_t child = fork();
        if (child == 0) {
            alarm(getenv("UNDER_VALGRIND") ? 100 : 5);
            _exit(gist_begin(common, 1) == GIST_SYSTEM && gist_close(common, NULL) == GIST_OK ? 0 : 1);
        }
        /* (what another thread had in hand stays unfreed in the child, of which valgrind makes a fault) */
        HOLDS(waitpid(child, &status, 0) == child && (status == 0 || getenv("UNDER_VALGRIND")));
    }
    is_over = true;
    return NULL;
}

void forked(void) {
    pthread_t other;
    int status = -1;
    common = fresh("forked", 4096, 16);
    HOLDS(gist_begin(common, 1) == GIST_OK && gist_insert(common, 1, 0, entry_of(0).box) == GIST_OK);
    pid_t child = fork();
    if (child == 0) _exit(child_of(common));
    HOLDS(waitpid(child, &status, 0) == child && status == 0);
    HOLDS(gist_commit(common, 1, NULL) == GIST_OK);
    is_over = false;
    HOLDS(pthread_create(&other, NULL, forks, NULL) == 0);
    in_threads(commits_on);
    HOLDS(pthread_join(other, NULL) == 0 && gist_close(common, NULL) == GIST_OK);
    HOLDS(gist_verify(NULL, "forked", NULL, NULL) == GIST_OK);
}

static volatile sig_atomic_t hail_count;

static void hit(int signal) {
    (void)signal;
    hail_count++;
}

/* Sends a thread a signal every 100 microseconds. */
static void *hail(void *thread) {
    while (!is_over) {
        pthread_kill(*(pthread_t *)thread, SIGUSR1);
        usleep(100);
    }
    return NULL;
}

/* A handler without SA_RESTART breaks no call off. */
void interrupted(void) {
    struct sigaction own = {.sa_handler = hit}, before;
    pthread_t self = pthread_self(), other;
    const gist_entry *found;
    size_t count;
    common = fresh("hail", 1024, 16);
    is_over = false;
    HOLDS(sigaction(SIGUSR1, &own, &before) == 0 && pthread_create(&other, NULL, hail, &self) == 0);
    for (uint64_t row = 0; row < 2000; row++) HOLDS(commit_one(1, row, NULL) == GIST_OK);
    HOLDS(gist_begin(common, 1) == GIST_OK);
    for (int i = 0; i < 50; i++)
        HOLDS(gist_search(common, 1, GIST_OVERLAP, PLANE, &found, &count) == GIST_OK && count == 2000);
    HOLDS(gist_close(common, NULL) == GIST_OK && found_in("hail") == 2000);
    is_over = true;
    HOLDS(pthread_join(other, NULL) == 0 && hail_count > 0);
    HOLDS(sigaction(SIGUSR1, &before, NULL) == 0);
}

/* How many commits of each session were answered, in memory that a child shares. */
static _Atomic uint64_t *answered;

static void *counted_commits(void *its) {
    unsigned session = *(unsigned *)its;
    for (uint64_t i = 0; i < 10000; i++) {
        if (commit_one(session, 10000 * session + i, NULL) != GIST_OK) _exit(1);
        answered[session]++;
    }
    return NULL;
}

/* A process that is killed while its threads commit: what was answered is there, and at most one commit more of each. */
void killed(void) {
    const gist_entry *found;
    size_t count;
    int status;
    answered = mmap(NULL, 4096, PROT_READ | PROT_WRITE, MAP_SHARED | MAP_ANONYMOUS, -1, 0);
    HOLDS(answered != MAP_FAILED && gist_format(NULL, "killed", 4096, 16, 0, NULL) == GIST_OK);
    pid_t child = fork();
    if (child == 0) {
        common = opened("killed");
        in_threads(counted_commits);
        _exit(2);
    }
    while (answered[1] < 20) usleep(100);
    HOLDS(kill(child, SIGKILL) == 0 && waitpid(child, &status, 0) == child && WIFSIGNALED(status));
    common = opened("killed");
    HOLDS(gist_begin(common, 1) == GIST_OK);
    for (unsigned session = 1; session <= SESSIONS; session++) {
        gist_entry first = entry_of(10000 * session), last = entry_of(10000 * session + 9999);
        gist_box box = {first.box.x1, -1000000, last.box.x2, 1000000};
        HOLDS(gist_search(common, 1, GIST_OVERLAP, box, &found, &count) == GIST_OK);
        HOLDS(count >= answered[session] && count <= answered[session] + 1);
        for (size_t i = 0; i < count; i++) HOLDS(is_entry(&found[i], first.row + i));
    }
    HOLDS(gist_close(common, NULL) == GIST_OK && munmap(answered, 4096) == 0);
}
