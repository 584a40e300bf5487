/* Writes and syncs that fail, and kills: what was acknowledged has to be found again.

   usage: faults FIRST LAST: each call of the file of these numbers fails once, with one thread and with four.
          faults kills N: so many times a process in which eight threads commit is killed.
   The last line is `N passed, M failed`. */
#define _GNU_SOURCE
#include "../../c/gist.h"
#include "disk.h"

#include <errno.h>
#include <pthread.h>
#include <signal.h>
#include <stdatomic.h>
#include <stdlib.h>
#include <string.h>
#include <sys/mman.h>
#include <sys/wait.h>
#include <unistd.h>

enum { SESSIONS = 8, COMMITS = 40, ROWS = 2, IMAGES = 4 };

static int passed, failed;
static gist_index *common;
/* How many commits of each session were acknowledged; shared with a child. */
static _Atomic uint64_t *acknowledged;
/* How often a thread's calls were answered by each status. */
static unsigned statuses[SESSIONS + 1][64];
static unsigned commits_each = COMMITS;

static void check(bool holds, const char *what, unsigned number) {
    if (holds) passed++;
    else failed++;
    if (!holds) printf("FAILED %s, %u\n", what, number);
}

static gist_box box_of(unsigned session, uint64_t row) {
    int32_t x = (int32_t)(100000 * session + row);
    return (gist_box){x, 0, x, 1};
}

/* A transaction that inserts two rows. The first status that isn't GIST_OK is counted, and ends it. */
static int transact(unsigned session, uint64_t number) {
    int told = gist_begin(common, session);
    for (uint64_t row = ROWS * number; told == GIST_OK && row < ROWS * (number + 1); row++)
        told = gist_insert(common, session, row, box_of(session, row));
    if (told == GIST_OK) told = gist_commit(common, session, NULL);
    statuses[session][told]++;
    return told;
}

static void *work(void *its) {
    unsigned session = *(unsigned *)its;
    for (uint64_t number = 0; number < commits_each; number++) {
        if (transact(session, number) != GIST_OK) {
            for (int more = 0; more < 3; more++) transact(session, number + 1);
            return NULL;
        }
        acknowledged[session]++;
    }
    return NULL;
}

static void work_in_threads(unsigned count) {
    pthread_t threads[SESSIONS];
    unsigned sessions[SESSIONS];
    for (unsigned i = 0; i < count; i++) {
        sessions[i] = i + 1;
        MUST(pthread_create(&threads[i], NULL, work, &sessions[i]) == 0);
    }
    for (unsigned i = 0; i < count; i++) MUST(pthread_join(threads[i], NULL) == 0);
}

/* Whether the index in a file holds of each session all that was acknowledged, and one commit more at most. */
static bool holds_all(const char *name) {
    gist_index *index;
    const gist_entry *found;
    size_t count;
    bool holds = gist_verify(NULL, name, NULL, NULL) == GIST_OK && gist_open(&index, NULL, name, 32, NULL) == GIST_OK;
    if (!holds) return false;
    for (unsigned session = 1; session <= SESSIONS; session++) {
        int32_t x = (int32_t)(100000 * session);
        gist_box all = {x, 0, x + 99999, 1};
        uint64_t least = ROWS * acknowledged[session];
        holds &= gist_begin(index, session) == GIST_OK &&
                 gist_search(index, session, GIST_OVERLAP, all, &found, &count) == GIST_OK &&
                 (count == least || count == least + ROWS);
        for (size_t i = 0; holds && i < count; i++) holds = found[i].row == i;
    }
    return gist_close(index, NULL) == GIST_OK && holds;
}

static void fresh(void) {
    MUST(gist_format(NULL, "it", 256, 8, GIST_OVERWRITE, NULL) == GIST_OK);
    for (unsigned session = 0; session <= SESSIONS; session++) acknowledged[session] = 0;
    memset(statuses, 0, sizeof statuses);
}

/* One call fails: one status is GIST_DEVICE, or of more threads one each at most, and from then on all are
   GIST_FAILED. */
static void one_fails(unsigned number, unsigned threads) {
    char name[] = "image";
    unsigned seed = number, device = 0, later = 0, others = 0;
    fresh();
    disk_watch("it");
    disk_set((disk_faults){.failing = number, .sync_time = threads > 1 ? 200 : 0});
    int told = gist_open(&common, NULL, "it", 32, NULL), closed = GIST_OK;
    if (told == GIST_OK) {
        work_in_threads(threads);
        closed = gist_close(common, NULL);
        for (unsigned session = 1; session <= threads; session++)
            for (int status = 1; status < 64; status++) {
                unsigned many = statuses[session][status];
                if (status == GIST_DEVICE) device += many;
                else if (status == GIST_FAILED) later += many;
                else others += many;
                if (status == GIST_DEVICE) check(many <= 1, "a thread is told once", number);
            }
        check(device >= 1 && others == 0 && later >= 3 && closed == GIST_FAILED, "statuses", number);
    } else check(told == GIST_DEVICE && common == NULL, "an opening whose call fails", number);
    disk_calls before = disk_counted();
    check(before.writes + before.syncs < number + threads, "no call follows the one that failed", number);
    for (unsigned i = 0; i < IMAGES; i++) {
        disk_image(name, i * 33, &seed);
        check(holds_all(name), "what was acknowledged is in an image", number);
    }
    disk_set((disk_faults){0});
    check(holds_all("it"), "what was acknowledged is in the file", number);
}

/* A process is killed while its threads commit. */
static void is_killed(unsigned number) {
    int status;
    fresh();
    pid_t child = fork();
    if (child == 0) {
        commits_each = 1000000;
        MUST(gist_open(&common, NULL, "it", 32, NULL) == GIST_OK);
        work_in_threads(SESSIONS);
        _exit(3);
    }
    usleep(3000 + 1700 * (number % 40));
    MUST(kill(child, SIGKILL) == 0 && waitpid(child, &status, 0) == child);
    check(WIFSIGNALED(status) && holds_all("it"), "what was acknowledged outlives a kill", number);
}

int main(int count, char **words) {
    MUST(count == 3);
    acknowledged = mmap(NULL, sizeof *acknowledged * (SESSIONS + 1), PROT_READ | PROT_WRITE, MAP_SHARED | MAP_ANONYMOUS,
                        -1, 0);
    MUST(acknowledged != MAP_FAILED);
    unsigned last = (unsigned)atoi(words[2]);
    if (strcmp(words[1], "kills") == 0)
        for (unsigned number = 0; number < last; number++) is_killed(number);
    else
        for (unsigned number = (unsigned)atoi(words[1]); number <= last; number++) {
            one_fails(number, 1);
            one_fails(number, 4);
        }
    printf("%d passed, %d failed\n", passed, failed);
    return failed != 0;
}
