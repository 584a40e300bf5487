/* Runs the tests of the client, or those that its arguments name, over the program that GIST names. The last line counts
   those that passed and failed. */
#define _GNU_SOURCE
#include "test.h"

#include <dirent.h>
#include <errno.h>
#include <signal.h>
#include <stdlib.h>
#include <string.h>
#include <sys/stat.h>
#include <sys/wait.h>
#include <unistd.h>

const gist_box PLANE = {INT32_MIN, INT32_MIN, INT32_MAX, INT32_MAX};
static char folder[] = "/tmp/gist-XXXXXX";
static size_t descriptors_before;
static int faults;

void check(bool holds, const char *what, const char *file, int line) {
    faults += !holds;
    if (!holds) printf("FAILED %s, line %d: %s\n", file, line, what);
}

gist_entry entry_of(uint64_t row) {
    int32_t at = (int32_t)row * 10;
    return (gist_entry){row, {at, -(int32_t)row, at + 5, (int32_t)row}};
}

bool is_entry(const gist_entry *it, uint64_t row) {
    gist_entry wanted = entry_of(row);
    return it->row == row && memcmp(&it->box, &wanted.box, sizeof wanted.box) == 0;
}

void fill(gist_entry *entries, uint64_t from, size_t count) {
    for (size_t i = 0; i < count; i++) entries[i] = entry_of(from + i);
}

gist_index *opened(const char *path) {
    gist_end end;
    gist_index *index = NULL;
    HOLDS(gist_open(&index, NULL, path, 64, &end) == GIST_OK);
    if (!index) {
        printf("no index: status %d, %s\n", end.status, end.sentence);
        exit(1);
    }
    return index;
}

gist_index *fresh(const char *path, unsigned pages, unsigned fanout) {
    HOLDS(gist_format(NULL, path, pages, fanout, GIST_OVERWRITE, NULL) == GIST_OK);
    return opened(path);
}

size_t found_in(const char *path) {
    gist_index *index = opened(path);
    const gist_entry *found;
    size_t count, place = 0;
    HOLDS(gist_begin(index, 1) == GIST_OK);
    HOLDS(gist_search(index, 1, GIST_OVERLAP, PLANE, &found, &count) == GIST_OK);
    while (place < count && is_entry(&found[place], place)) place++;
    HOLDS(place == count);
    HOLDS(gist_close(index, NULL) == GIST_OK);
    return count;
}

void script(const char *path, const char *text) {
    unlink(path);
    FILE *it = fopen(path, "we");
    HOLDS(it && fprintf(it, "#!/bin/sh\n%s\n", text) > 0 && fclose(it) == 0);
    HOLDS(chmod(path, 0700) == 0);
}

static size_t descriptors(void) {
    size_t count = 0;
    DIR *all = opendir("/proc/self/fd");
    while (all && readdir(all)) count++;
    if (all) closedir(all);
    return count;
}

/* Leaves nothing open, and no child that wasn't waited for. */
static void leftovers(void) {
    HOLDS(descriptors() == descriptors_before);
    HOLDS(waitpid(-1, NULL, WNOHANG) == -1 && errno == ECHILD);
}

static void clear_up(void) {
    char command[64];
    snprintf(command, sizeof command, "rm -rf %s", folder);
    if (system(command) != 0) printf("%s is left\n", folder);
}

/* A test, and the seconds in which it has to end. Under valgrind it gets twenty times as many. */
static const struct {
    const char *name;
    void (*run)(void);
    unsigned seconds;
} TESTS[] = {
    /* (first, since later ones leave free memory) */
    {"memory_ends", memory_ends, 30},
    {"calls", calls, 30},
    {"refusals", refusals, 30},
    {"many", many, 60},
    {"sessions", sessions, 30},
    {"searches", searches, 30},
    {"space", space, 30},
    {"space_many", space_many, 60},
    {"wrong_boxes", wrong_boxes, 30},
    {"killed", killed, 30},
    {"openings", openings, 30},
    {"overwriting", overwriting, 30},
    {"migrations", migrations, 30},
    {"counts", counts, 30},
    {"installed", installed, 30},
    {"full_disk", full_disk, 60},
    {"surroundings", surroundings, 30},
    {"ends", ends, 30},
    {"odd_answers", odd_answers, 30},
    {"answers", answers, 30},
    {"cut_answers", cut_answers, 30},
    {"long_answers", long_answers, 60},
    {"threads", threads, 60},
    {"shared", shared, 60},
    {"forked", forked, 30},
    {"interrupted", interrupted, 60},
    {"nonsense", nonsense, 30},
    {"stopped", stopped, 30},
    {"descriptors_end", descriptors_end, 30},
    {"leftovers", leftovers, 30},
};
static size_t running;

/* Ends all if a test hangs. */
static void late(int signal) {
    static const char TEXT[] = " had not ended in its time\n";
    (void)signal;
    if (write(STDOUT_FILENO, TESTS[running].name, strlen(TESTS[running].name)) < 0) _exit(2);
    if (write(STDOUT_FILENO, TEXT, sizeof TEXT - 1) < 0) _exit(2);
    _exit(1);
}

/* Whether there is a program; a launcher that isn't built says how to build it. */
static bool is_built(void) {
    gist_end end;
    if (gist_format(NULL, "first", 8, 4, 0, &end) == GIST_OK) return true;
    fprintf(stderr, "test: %s\n", end.sentence[0] ? end.sentence : strerror(errno));
    return false;
}

static bool is_named(const char *test, int count, char **words) {
    for (int i = 1; i < count; i++)
        if (strcmp(words[i], test) == 0) return true;
    return count <= 1;
}

int main(int count, char **words) {
    int passed = 0, failed = 0;
    const char *program = getenv("GIST");
    char *whole = program ? realpath(program, NULL) : NULL;
    if (!whole || setenv("GIST", whole, 1) != 0 || !mkdtemp(folder) || chdir(folder) != 0) {
        fprintf(stderr, "test: GIST names no program, or no folder can be made\n");
        return 2;
    }
    free(whole);
    atexit(clear_up);
    if (!is_built()) return 3;
    signal(SIGALRM, late);
    setvbuf(stdout, NULL, _IOLBF, 0);
    descriptors_before = descriptors();
    for (running = 0; running < sizeof TESTS / sizeof *TESTS; running++) {
        if (!is_named(TESTS[running].name, count, words)) continue;
        faults = 0;
        alarm(TESTS[running].seconds * (getenv("UNDER_VALGRIND") ? 20 : 1));
        TESTS[running].run();
        alarm(0);
        faults ? failed++ : passed++;
    }
    printf("%d passed, %d failed\n", passed, failed);
    return failed != 0;
}
