/* Tests of what the header's caveats say: threads, forks, signals, and arguments that make no sense. */
#define _GNU_SOURCE
#include "test.h"

#include <errno.h>
#include <fcntl.h>
#include <pthread.h>
#include <signal.h>
#include <stdatomic.h>
#include <stdlib.h>
#include <string.h>
#include <sys/resource.h>
#include <sys/wait.h>
#include <unistd.h>

/* Eight threads that share an index, a session each, by a lock around its calls. */
static gist_index *common;
static pthread_mutex_t lock = PTHREAD_MUTEX_INITIALIZER;

static int locked_work(unsigned session, uint64_t from) {
    gist_entry entries[5];
    fill(entries, from, 5);
    int status = GIST_OK;
    for (int step = 0; status == GIST_OK && step < 3; step++) {
        pthread_mutex_lock(&lock);
        if (step == 0) status = gist_begin(common, session);
        if (step == 1) status = gist_insert_many(common, session, entries, 5, NULL);
        if (step == 2) status = gist_commit(common, session, NULL);
        pthread_mutex_unlock(&lock);
    }
    return status;
}

static void *share(void *session) {
    unsigned s = *(unsigned *)session;
    for (uint64_t round = 0; round < 20; round++)
        if (locked_work(s, 100 * (s - 1) + 5 * round) != GIST_OK) return NULL;
    return session;
}

void shared(void) {
    unsigned numbers[8];
    pthread_t all[8];
    void *told;
    common = fresh("shared", 512, 16);
    for (unsigned i = 0; i < 8; i++) {
        numbers[i] = i + 1;
        HOLDS(pthread_create(&all[i], NULL, share, &numbers[i]) == 0);
    }
    for (int i = 0; i < 8; i++) HOLDS(pthread_join(all[i], &told) == 0 && told == &numbers[i]);
    HOLDS(gist_close(common, NULL) == GIST_OK);
    HOLDS(found_in("shared") == 800);
}

/* What a forked child makes of its parent's index. Returns which of it is wrong. */
static int child_of(gist_index *index) {
    const gist_entry *found;
    gist_end end;
    size_t count;
    errno = 0;
    if (gist_insert(index, 1, 9, PLANE) != GIST_SYSTEM || errno != ECHILD) return 1;
    errno = 0;
    if (gist_search(index, 1, GIST_OVERLAP, PLANE, &found, &count) != GIST_SYSTEM || errno != ECHILD) return 2;
    if (gist_begin(index, 2) != GIST_SYSTEM || gist_commit(index, 1, NULL) != GIST_SYSTEM) return 3;
    return gist_close(index, &end) == GIST_OK ? 0 : 4;
}

/* Opens an index and has a child close it, which reports its number and the reply that it got; both live on. */
static void closes_in_child(int to) {
    gist_index *index = opened("forked");
    if (fork() == 0) {
        pid_t told[2] = {getpid(), gist_close(index, NULL)};
        if (write(to, told, sizeof told) != sizeof told) _exit(1);
    }
    pause();
    _exit(0);
}

void forked(void) {
    gist_index *index = fresh("forked", 16, 4);
    gist_entry it = entry_of(0);
    int status = -1;
    HOLDS(gist_begin(index, 1) == GIST_OK && gist_insert(index, 1, it.row, it.box) == GIST_OK);
    pid_t child = fork();
    if (child == 0) _exit(child_of(index));
    HOLDS(waitpid(child, &status, 0) == child && status == 0);
    HOLDS(gist_commit(index, 1, NULL) == GIST_OK);
    HOLDS(gist_close(index, NULL) == GIST_OK);
    HOLDS(found_in("forked") == 1);
    int pipes[2];
    pid_t parent, both[2] = {0};
    HOLDS(pipe2(pipes, O_CLOEXEC) == 0);
    if ((parent = fork()) == 0) closes_in_child(pipes[1]);
    /* a parent that is killed leaves the file free, since its child has closed the index */
    HOLDS(close(pipes[1]) == 0 && read(pipes[0], both, sizeof both) == sizeof both && close(pipes[0]) == 0);
    HOLDS(both[1] == GIST_OK);
    HOLDS(kill(parent, SIGKILL) == 0 && waitpid(parent, &status, 0) == parent);
    while (gist_open(&index, NULL, "forked", 64, NULL) == GIST_DEVICE) usleep(10000);
    HOLDS(gist_close(index, NULL) == GIST_OK);
    HOLDS(both[0] > 0 && kill(both[0], SIGKILL) == 0);
}

static atomic_bool hails;
static volatile sig_atomic_t hail_count;

static void hit(int signal) {
    (void)signal;
    hail_count++;
}

/* Sends a thread a signal every 300 microseconds. */
static void *hail(void *thread) {
    while (hails) {
        pthread_kill(*(pthread_t *)thread, SIGUSR1);
        usleep(300);
    }
    return NULL;
}

static void calls_in_hail(void) {
    gist_entry entries[20];
    const gist_entry *found;
    size_t count;
    for (int i = 0; i < 20; i++) HOLDS(gist_format(NULL, "hail", 512, 16, GIST_OVERWRITE, NULL) == GIST_OK);
    gist_index *index = opened("hail");
    for (uint64_t from = 0; from < 2000; from += 20) {
        fill(entries, from, 20);
        HOLDS(gist_begin(index, 1) == GIST_OK && gist_insert_many(index, 1, entries, 20, NULL) == GIST_OK);
        HOLDS(gist_commit(index, 1, NULL) == GIST_OK);
    }
    HOLDS(gist_begin(index, 1) == GIST_OK);
    HOLDS(gist_search(index, 1, GIST_OVERLAP, PLANE, &found, &count) == GIST_OK && count == 2000);
    HOLDS(gist_close(index, NULL) == GIST_OK);
    for (int i = 0; i < 10; i++) {
        char *text = NULL;
        size_t length, lines = 0;
        FILE *tree = open_memstream(&text, &length);
        HOLDS(gist_dump(NULL, "hail", tree, NULL) == GIST_OK && fclose(tree) == 0);
        for (char *at = text; (at = strchr(at, '\n')); at++) lines++;
        HOLDS(lines > 2000);
        free(text);
    }
    HOLDS(found_in("hail") == 2000);
}

/* A handler without SA_RESTART breaks no call off. */
void interrupted(void) {
    struct sigaction own = {.sa_handler = hit}, before;
    pthread_t self = pthread_self(), other;
    HOLDS(sigaction(SIGUSR1, &own, &before) == 0);
    hails = true;
    HOLDS(pthread_create(&other, NULL, hail, &self) == 0);
    calls_in_hail();
    hails = false;
    HOLDS(pthread_join(other, NULL) == 0 && hail_count > 0);
    HOLDS(sigaction(SIGUSR1, &before, NULL) == 0);
}

#define SENSELESS(call) HOLDS((errno = 0, (call) == GIST_SYSTEM && errno == EINVAL))

void nonsense(void) {
    gist_index *index = fresh("nonsense", 16, 4);
    const gist_entry *found;
    size_t count;
    SENSELESS(gist_begin(NULL, 1));
    SENSELESS(gist_commit(NULL, 1, NULL));
    SENSELESS(gist_abort(NULL, 1));
    SENSELESS(gist_insert(NULL, 1, 1, PLANE));
    SENSELESS(gist_delete(NULL, 1, 1, PLANE));
    SENSELESS(gist_insert_many(NULL, 1, NULL, 0, &count));
    SENSELESS(gist_insert_many(index, 1, NULL, 1, &count));
    SENSELESS(gist_search(NULL, 1, GIST_EQUAL, PLANE, &found, &count));
    SENSELESS(gist_search(index, 1, (enum gist_query)77, PLANE, &found, &count));
    SENSELESS(gist_search(index, 1, (enum gist_query) - 1, PLANE, &found, &count));
    SENSELESS(gist_search(index, 1, GIST_EQUAL, PLANE, NULL, &count));
    SENSELESS(gist_search(index, 1, GIST_EQUAL, PLANE, &found, NULL));
    SENSELESS(gist_search_many(NULL, 1, GIST_EQUAL, &PLANE, 0, NULL, NULL));
    SENSELESS(gist_search_many(index, 1, GIST_EQUAL, NULL, 1, NULL, NULL));
    SENSELESS(gist_search_many(index, 1, (enum gist_query)4, &PLANE, 0, NULL, NULL));
    SENSELESS(gist_open(NULL, NULL, "nonsense", 64, NULL));
    SENSELESS(gist_open(&(gist_index *){NULL}, NULL, NULL, 64, NULL));
    SENSELESS(gist_format(NULL, NULL, 8, 4, 0, NULL));
    SENSELESS(gist_dump(NULL, NULL, stdout, NULL));
    SENSELESS(gist_dump(NULL, "nonsense", NULL, NULL));
    SENSELESS(gist_verify(NULL, NULL, NULL, NULL));
    SENSELESS(gist_stat(NULL, "nonsense", NULL, NULL));
    HOLDS(gist_busy(NULL) == 0 && gist_pid(NULL) == 0 && gist_close(NULL, NULL) == GIST_OK);
    HOLDS(gist_begin(index, 1) == GIST_OK && gist_insert_many(index, 1, NULL, 0, &count) == GIST_OK && count == 0);
    HOLDS(gist_close(index, NULL) == GIST_OK);
}

/* Kills a process after a while. */
static void *kill_later(void *pid) {
    usleep(200000);
    return kill(*(pid_t *)pid, SIGKILL) == 0 ? pid : NULL;
}

/* A call that waits for a program that doesn't answer ends if the program is killed. */
void stopped(void) {
    gist_index *index = fresh("stopped", 16, 4);
    gist_end end;
    pthread_t other;
    pid_t pid = (pid_t)gist_pid(index);
    void *told;
    HOLDS(kill(pid, SIGSTOP) == 0 && pthread_create(&other, NULL, kill_later, &pid) == 0);
    HOLDS(gist_begin(index, 1) == GIST_ENDED);
    HOLDS(pthread_join(other, &told) == 0 && told == &pid);
    HOLDS(gist_close(index, &end) == GIST_ENDED && end.status == -SIGKILL && strstr(end.sentence, "SIGKILL"));
}

/* The program gets none of this process's descriptors, and if none can be made no call is made of it. */
void descriptors_end(void) {
    char ours[64], its[64], path[64];
    gist_index *index, *other;
    struct rlimit before, below;
    int open_here = open(".", O_RDONLY); /* (not closed on exec) */
    index = fresh("descriptors", 16, 4);
    snprintf(path, sizeof path, "/proc/self/fd/%d", open_here);
    ssize_t length = readlink(path, ours, sizeof ours);
    snprintf(path, sizeof path, "/proc/%ld/fd/%d", gist_pid(index), open_here);
    ssize_t its_length = readlink(path, its, sizeof its);
#if __GLIBC_PREREQ(2, 34)
    HOLDS(length > 0 && (its_length != length || memcmp(ours, its, (size_t)length) != 0));
#else
    (void)length, (void)its_length;
#endif
    HOLDS(getrlimit(RLIMIT_NOFILE, &before) == 0);
    for (rlim_t more = 1; more < 5; more++) {
        below = (struct rlimit){(rlim_t)open_here + 3 + more, before.rlim_max};
        HOLDS(setrlimit(RLIMIT_NOFILE, &below) == 0);
        int status = gist_open(&other, NULL, "nowhere", 64, NULL), failed = errno;
        HOLDS(setrlimit(RLIMIT_NOFILE, &before) == 0);
        HOLDS(status == GIST_SYSTEM && failed == EMFILE && !other);
    }
    HOLDS(gist_close(index, NULL) == GIST_OK && close(open_here) == 0);
}

/* A search whose answer has no room here is read to its end all the same. */
void memory_ends(void) {
#ifndef __SANITIZE_ADDRESS__
    gist_entry entries[500];
    const gist_entry *found;
    struct rlimit before, below;
    size_t count;
    if (getenv("UNDER_VALGRIND")) return;
    gist_index *index = fresh("memory", 512, 100);
    for (uint64_t from = 0; from < 10000; from += 500) {
        fill(entries, from, 500);
        HOLDS(gist_begin(index, 1) == GIST_OK && gist_insert_many(index, 1, entries, 500, NULL) == GIST_OK);
        HOLDS(gist_commit(index, 1, NULL) == GIST_OK);
    }
    HOLDS(gist_begin(index, 1) == GIST_OK && getrlimit(RLIMIT_AS, &before) == 0);
    below = (struct rlimit){1 << 20, before.rlim_max};
    HOLDS(setrlimit(RLIMIT_AS, &below) == 0);
    int status = gist_search(index, 1, GIST_OVERLAP, PLANE, &found, &count), failed = errno;
    HOLDS(setrlimit(RLIMIT_AS, &before) == 0);
    HOLDS(status == GIST_SYSTEM && failed == ENOMEM && !found && count == 0);
    HOLDS(gist_search(index, 1, GIST_EQUAL, entries[0].box, &found, &count) == GIST_OK && count == 1);
    HOLDS(gist_search(index, 1, GIST_OVERLAP, PLANE, &found, &count) == GIST_OK && count == 10000);
    HOLDS(gist_close(index, NULL) == GIST_OK);
#endif
}
