/* Runs the tests of the library in process, or those that its arguments name: its own, and those of the client's calls. The
   last line counts those that passed and failed. */
#define _GNU_SOURCE
#include "../test.h"

#include <dirent.h>
#include <signal.h>
#include <stdlib.h>
#include <string.h>
#include <sys/stat.h>
#include <unistd.h>

const gist_box PLANE = {INT32_MIN, INT32_MIN, INT32_MAX, INT32_MAX};
static char folder[] = "/tmp/gist-XXXXXX";
static size_t descriptors_before;
static int faults;

void check(bool holds, const char *what, const char *file, int line) {
    __atomic_add_fetch(&faults, !holds, __ATOMIC_SEQ_CST);
    if (!holds) printf("FAILED %s, line %d: %s\n", file, line, what);
}

gist_entry entry_of(uint64_t row) {
    int32_t at = (int32_t)row * 10;
    return (gist_entry){row, {at, -(int32_t)row, at + 5, (int32_t)row}};
}

bool is_entry(const gist_entry *it, uint64_t row) {
    gist_entry wanted = entry_of(row);
    return it->row == row && memcmp(&it->box, &wanted.box, sizeof wanted.box) == 0;
}

void fill(gist_entry *entries, uint64_t from, size_t count) {
    for (size_t i = 0; i < count; i++) entries[i] = entry_of(from + i);
}

gist_index *opened(const char *path) {
    gist_end end;
    gist_index *index = NULL;
    HOLDS(gist_open(&index, NULL, path, 64, &end) == GIST_OK);
    if (index) return index;
    printf("no index: %s\n", end.sentence);
    exit(1);
}

gist_index *fresh(const char *path, unsigned pages, unsigned fanout) {
    HOLDS(gist_format(NULL, path, pages, fanout, GIST_OVERWRITE, NULL) == GIST_OK);
    return opened(path);
}

size_t found_in(const char *path) {
    gist_index *index = opened(path);
    const gist_entry *found;
    size_t count, place = 0;
    HOLDS(gist_begin(index, 1) == GIST_OK);
    HOLDS(gist_search(index, 1, GIST_OVERLAP, PLANE, &found, &count) == GIST_OK);
    while (place < count && is_entry(&found[place], place)) place++;
    HOLDS(place == count);
    HOLDS(gist_close(index, NULL) == GIST_OK);
    return count;
}

static size_t descriptors(void) {
    size_t count = 0;
    DIR *all = opendir("/proc/self/fd");
    while (all && readdir(all)) count++;
    closedir(all);
    return count;
}

/* No test leaves a descriptor open. */
static void leftovers(void) {
    HOLDS(descriptors() == descriptors_before);
}

static void clear_up(void) {
    char command[64];
    snprintf(command, sizeof command, "rm -rf %s", folder);
    if (system(command) != 0) printf("%s is left\n", folder);
}

/* A test, and the seconds in which it has to end; under valgrind it gets twenty times as many. */
static const struct {
    const char *name;
    void (*run)(void);
    unsigned seconds;
} TESTS[] = {
    /* (first, since later ones leave free memory) */
    {"memory_ends", memory_ends, 30},
    {"calls", calls, 30},
    {"refusals", refusals, 30},
    {"many", many, 60},
    {"sessions", sessions, 30},
    {"searches", searches, 30},
    {"space", space, 30},
    {"space_many", space_many, 60},
    {"wrong_boxes", wrong_boxes, 30},
    {"openings", openings, 30},
    {"overwriting", overwriting, 30},
    {"counts", counts, 30},
    {"full_disk", full_disk, 30},
    {"surroundings", surroundings, 30},
    {"nonsense", nonsense, 30},
    {"descriptors_end", descriptors_end, 30},
    {"threads", threads, 60},
    {"shared", shared, 60},
    {"forked", forked, 60},
    {"interrupted", interrupted, 60},
    {"killed", killed, 60},
    {"leftovers", leftovers, 30},
};
static size_t running;

/* Ends all where a test hangs. */
static void late(int signal) {
    static const char TEXT[] = " had not ended in its time\n";
    (void)signal;
    if (write(STDOUT_FILENO, TESTS[running].name, strlen(TESTS[running].name)) < 0) _exit(2);
    if (write(STDOUT_FILENO, TEXT, sizeof TEXT - 1) < 0) _exit(2);
    _exit(1);
}

static bool is_named(const char *test, int count, char **words) {
    for (int i = 1; i < count; i++)
        if (strcmp(words[i], test) == 0) return true;
    return count <= 1;
}

int main(int count, char **words) {
    int passed = 0, failed = 0;
    if (!mkdtemp(folder) || chdir(folder) != 0) return 2;
    atexit(clear_up);
    signal(SIGALRM, late);
    setvbuf(stdout, NULL, _IOLBF, 0);
    descriptors_before = descriptors();
    for (running = 0; running < sizeof TESTS / sizeof *TESTS; running++) {
        if (!is_named(TESTS[running].name, count, words)) continue;
        faults = 0;
        alarm(TESTS[running].seconds * (getenv("UNDER_VALGRIND") ? 20 : 1));
        TESTS[running].run();
        alarm(0);
        faults ? failed++ : passed++;
        if (faults) printf("FAILED %s\n", TESTS[running].name);
    }
    printf("%d passed, %d failed\n", passed, failed);
    return failed != 0;
}
