/* Tests of the program as a process: files that it can't open, its end, and what it shares with this process. */
#define _GNU_SOURCE
#include "test.h"

#include <errno.h>
#include <fcntl.h>
#include <pthread.h>
#include <signal.h>
#include <stdlib.h>
#include <string.h>
#include <sys/resource.h>
#include <sys/stat.h>
#include <sys/wait.h>
#include <unistd.h>

void killed(void) {
    gist_entry entries[200];
    gist_end end;
    size_t count;
    const gist_entry *found;
    HOLDS(gist_format(NULL, "killed", 512, 16, 0, NULL) == GIST_OK);
    for (size_t from = 0; from < 50; from += 10) {
        gist_index *index = opened("killed");
        fill(entries, from, 200);
        HOLDS(gist_begin(index, 1) == GIST_OK && gist_begin(index, 2) == GIST_OK);
        HOLDS(gist_insert_many(index, 1, entries, 10, NULL) == GIST_OK);
        HOLDS(gist_commit(index, 1, NULL) == GIST_OK);
        HOLDS(gist_insert_many(index, 2, entries + 10, 100, NULL) == GIST_OK);
        HOLDS(kill((pid_t)gist_pid(index), SIGKILL) == 0);
        HOLDS(gist_insert_many(index, 2, entries + 110, 50, &count) == GIST_ENDED && count == 0);
        HOLDS(gist_begin(index, 3) == GIST_ENDED);
        HOLDS(gist_search(index, 2, GIST_OVERLAP, PLANE, &found, &count) == GIST_ENDED && !found && count == 0);
        HOLDS(gist_close(index, &end) == GIST_ENDED && end.status == -SIGKILL);
        HOLDS(strstr(end.sentence, "ended because SIGKILL killed it"));
        HOLDS(found_in("killed") == from + 10);
    }
}

/* The file's first ten pages end at 8,523,776 + 40,960 bytes; no page after them can be written. */
void full_disk(void) {
    gist_entry entries[100];
    gist_end end;
    gist_index *index;
    struct rlimit before, below;
    size_t kept = 0, found;
    int status = GIST_OK;
    HOLDS(gist_format(NULL, "full", 2048, 100, 0, NULL) == GIST_OK);
    HOLDS(getrlimit(RLIMIT_FSIZE, &before) == 0);
    below = (struct rlimit){512 * 16648 + 40960, before.rlim_max};
    void (*usual)(int) = signal(SIGXFSZ, SIG_IGN);
    HOLDS(setrlimit(RLIMIT_FSIZE, &below) == 0);
    index = opened("full");
    HOLDS(setrlimit(RLIMIT_FSIZE, &before) == 0);
    signal(SIGXFSZ, usual);
    while (status == GIST_OK && kept < 20000) {
        fill(entries, kept, 100);
        status = gist_begin(index, 1);
        if (status == GIST_OK) status = gist_insert_many(index, 1, entries, 100, NULL);
        if (status == GIST_OK) status = gist_commit(index, 1, NULL);
        if (status == GIST_OK) kept += 100;
    }
    HOLDS(status == GIST_DEVICE && kept > 0);
    HOLDS(gist_begin(index, 2) == GIST_FAILED);
    HOLDS(gist_close(index, &end) != GIST_OK && end.status == 1 && end.sentence[0] != 0);
    found = found_in("full");
    HOLDS(found == kept || found == kept + 100);
}

static volatile sig_atomic_t pipes;

static void count_pipe(int signal) {
    (void)signal;
    pipes++;
}

/* What the process has set for its signals and descriptors stays, and counts for nothing. */
void surroundings(void) {
    struct sigaction own = {.sa_handler = count_pipe}, now;
    sigset_t all, before;
    gist_end end;
    HOLDS(sigaction(SIGPIPE, &own, NULL) == 0);
    gist_index *index = fresh("signals", 16, 4);
    HOLDS(kill((pid_t)gist_pid(index), SIGKILL) == 0 && gist_begin(index, 1) == GIST_ENDED);
    HOLDS(gist_close(index, NULL) == GIST_ENDED && pipes == 0);
    HOLDS(sigaction(SIGPIPE, NULL, &now) == 0 && now.sa_handler == count_pipe);
    signal(SIGPIPE, SIG_DFL);
    /* the program can be ended by a signal that is blocked here */
    sigfillset(&all);
    HOLDS(pthread_sigmask(SIG_SETMASK, &all, &before) == 0);
    index = opened("signals");
    HOLDS(pthread_sigmask(SIG_SETMASK, &before, NULL) == 0);
    HOLDS(getpgid((pid_t)gist_pid(index)) != getpgid(0));
    HOLDS(kill((pid_t)gist_pid(index), SIGTERM) == 0 && gist_close(index, &end) == GIST_ENDED &&
          end.status == -SIGTERM && strstr(end.sentence, "SIGTERM"));
    /* if children are not waited for, a fault is still reported */
    signal(SIGCHLD, SIG_IGN);
    HOLDS(gist_format(NULL, "signals", 16, 4, GIST_OVERWRITE, NULL) == GIST_OK);
    HOLDS(gist_open(&index, NULL, "nowhere", 64, &end) == GIST_DEVICE);
    index = opened("signals");
    HOLDS(kill((pid_t)gist_pid(index), SIGKILL) == 0 && gist_begin(index, 1) == GIST_ENDED);
    HOLDS(gist_close(index, &end) == GIST_ENDED && end.sentence[0] != 0);
    index = opened("signals");
    HOLDS(gist_close(index, &end) == GIST_OK && end.sentence[0] == 0);
    signal(SIGCHLD, SIG_DFL);
    /* a process without standard streams */
    pid_t child = fork();
    if (child == 0) {
        close(0);
        close(1);
        close(2);
        if (gist_format(NULL, "bare", 16, 4, 0, NULL) != GIST_OK) _exit(1);
        if (gist_open(&index, NULL, "bare", 64, NULL) != GIST_OK) _exit(2);
        if (gist_begin(index, 1) != GIST_OK) _exit(3);
        _exit(gist_close(index, NULL));
    }
    int status = -1;
    HOLDS(waitpid(child, &status, 0) == child && status == 0);
    /* one that was forked off and still lives */
    index = opened("signals");
    child = fork();
    if (child == 0) {
        pause();
        _exit(0);
    }
    HOLDS(gist_close(index, NULL) == GIST_OK);
    HOLDS(kill(child, SIGKILL) == 0 && waitpid(child, &status, 0) == child);
}

/* A program that ends says why, as a text. */
void ends(void) {
    gist_index *index;
    gist_end end;
    HOLDS(gist_open(&index, "/bin/true", "x", 64, &end) == GIST_ENDED && end.status == 0);
    HOLDS(strcmp(end.sentence, "ended before it was asked to, and said nothing") == 0);
    HOLDS(gist_open(&index, "/bin/false", "x", 64, &end) == GIST_ENDED && end.status == 1);
    HOLDS(strcmp(end.sentence, "ended with status 1 and said nothing") == 0);
    HOLDS(gist_format("/bin/false", "x", 16, 4, 0, &end) == GIST_ENDED && end.status == 1 && end.sentence[0]);
    script("breaks", "echo 'gist: it broke' >&2; kill -ABRT $$");
    HOLDS(gist_open(&index, "./breaks", "x", 64, &end) == GIST_ENDED && end.status == -SIGABRT);
    HOLDS(strcmp(end.sentence, "ended because SIGABRT ended it, a fault of the program (signal 6); it broke") == 0);
    script("breaks", "kill -USR2 $$");
    HOLDS(gist_open(&index, "./breaks", "x", 64, &end) == GIST_ENDED && strstr(end.sentence, "a signal ended it"));
    /* a launcher is asked to build nothing, and one that isn't built says so */
    script("launcher", "[ \"$GIST_NO_BUILD\" = 1 ] && echo told >&2; exit 3");
    HOLDS(gist_open(&index, "./launcher", "x", 64, &end) == GIST_ENDED && end.status == 3);
    HOLDS(strcmp(end.sentence, "told") == 0);
    HOLDS(system("mkdir unbuilt && cp \"$LAUNCHER\" unbuilt/gist") == 0);
    HOLDS(gist_open(&index, "unbuilt/gist", "x", 64, &end) == GIST_ENDED && end.status == 3);
    HOLDS(strncmp(end.sentence, "the program isn't built", 23) == 0 && !strchr(end.sentence, '\n'));
}

void odd_answers(void) {
    static const struct {
        const char *text;
        int status;
    } CASES[] = {
        {"0 what\\n", GIST_PROTOCOL},
        {"\\n", GIST_PROTOCOL},
        {"0 refused x\\n", GIST_PROTOCOL},
        {"0 refused 5 busy\\n", GIST_PROTOCOL},
        {"0 ok\\n1 ok\\n", GIST_PROTOCOL},
        {"", GIST_ENDED},
        {"0 refused 15 bad", GIST_ENDED},
        {"0 found 5\\n0 entry", GIST_ENDED},
        {"0 found 1\\n0 entr\\n", GIST_PROTOCOL},
        {"0 aborted\\n", GIST_PROTOCOL},
        {"1 refused 15 bad session\\n", GIST_PROTOCOL},
        {"0 refused 12 failed\\n", GIST_PROTOCOL},
    };
    gist_index *index;
    for (size_t i = 0; i < sizeof CASES / sizeof *CASES; i++) {
        char text[128];
        snprintf(text, sizeof text, "read line\nprintf '%s'", CASES[i].text);
        script("answering", text);
        HOLDS(gist_open(&index, "./answering", "x", 64, NULL) == CASES[i].status && !index);
    }
    for (int status = -1; status < 40; status++) HOLDS(gist_text(status)[0] != 0 && gist_strerror(status)[0] != 0);
    HOLDS(strcmp(gist_text(GIST_PREDICATES_FULL), "predicates full") == 0);
    HOLDS(strstr(gist_strerror(GIST_PREDICATES_FULL), "begin another"));
    HOLDS(strcmp(gist_text(GIST_ENDED - 1), "no status") == 0);
}

/* Each thread opens, uses and closes its own indexes. */
static void *work(void *name) {
    bool holds = gist_format(NULL, name, 64, 16, 0, NULL) == GIST_OK;
    for (uint64_t row = 0; holds && row < 10; row++) {
        gist_index *index;
        gist_entry it = entry_of(row);
        holds = gist_open(&index, NULL, name, 64, NULL) == GIST_OK && gist_begin(index, 1) == GIST_OK &&
                gist_insert(index, 1, it.row, it.box) == GIST_OK && gist_commit(index, 1, NULL) == GIST_OK &&
                gist_close(index, NULL) == GIST_OK;
    }
    return holds ? name : NULL;
}

void threads(void) {
    char names[4][2] = {"a", "b", "c", "d"};
    pthread_t all[4];
    void *told;
    for (int i = 0; i < 4; i++) HOLDS(pthread_create(&all[i], NULL, work, names[i]) == 0);
    for (int i = 0; i < 4; i++) HOLDS(pthread_join(all[i], &told) == 0 && told == names[i]);
    for (int i = 0; i < 4; i++) HOLDS(found_in(names[i]) == 10);
}
