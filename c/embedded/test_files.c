/* Tests of the library's files: what is opened, formatted and counted, and what the system refuses. */
#define _GNU_SOURCE
#include "../test.h"

#include <errno.h>
#include <fcntl.h>
#include <signal.h>
#include <stdlib.h>
#include <string.h>
#include <sys/resource.h>
#include <sys/stat.h>
#include <sys/wait.h>
#include <unistd.h>

static bool is_there(const char *path) {
    return access(path, F_OK) == 0;
}

/* The status with which a file isn't opened, and what is said of it. */
static int refused(const char *path, const char *told) {
    gist_index *index = (gist_index *)1;
    gist_end end;
    int status = gist_open(&index, NULL, path, 64, &end);
    HOLDS(!index && end.status == 1 && strstr(end.sentence, told));
    if (!strstr(end.sentence, told)) printf("%s\n", end.sentence);
    return status;
}

void openings(void) {
    HOLDS(refused("nowhere", "nowhere: No such file") == GIST_DEVICE && !is_there("nowhere"));
    HOLDS(refused("no/such", "no/such: No such file") == GIST_DEVICE && refused(".", "directory") == GIST_DEVICE);
    HOLDS(mkfifo("pipe", 0600) == 0 && refused("pipe", "Invalid argument") == GIST_DEVICE);
    int zeros = open("zeros", O_RDWR | O_CREAT | O_CLOEXEC, 0600);
    HOLDS(refused("zeros", "too small") == GIST_TOO_SMALL);
    HOLDS(ftruncate(zeros, 2048000) == 0 && refused("zeros", "too small") == GIST_TOO_SMALL);
    HOLDS(ftruncate(zeros, 512 * 16776) == 0 && refused("zeros", "not formatted") == GIST_NOT_FORMATTED);
    HOLDS(close(zeros) == 0 && chmod("zeros", 0400) == 0);
    if (geteuid() != 0) HOLDS(refused("zeros", "Permission denied") == GIST_DEVICE);
    gist_index *index = fresh("used", 16, 4), *other;
    HOLDS(refused("used", "in use") == GIST_DEVICE && gist_verify(NULL, "used", NULL, NULL) == GIST_DEVICE);
    HOLDS(gist_begin(index, 1) == GIST_OK && gist_insert(index, 1, 7, (gist_box){0, 0, 10, 10}) == GIST_OK);
    HOLDS(gist_commit(index, 1, NULL) == GIST_OK && gist_close(index, NULL) == GIST_OK);
    HOLDS(gist_open(&other, NULL, "used", 15, NULL) == GIST_BAD_PARAMETER && !other);
    HOLDS(gist_open(&other, NULL, "used", 4097, NULL) == GIST_BAD_PARAMETER && !other);
    HOLDS(gist_open(&other, NULL, "used", 0, NULL) == GIST_OK && gist_close(other, NULL) == GIST_OK);
    int odd = open("used", O_RDWR | O_CLOEXEC);
    HOLDS(pwrite(odd, "\0\2", 2, 512 + 6) == 2 && refused("used", "bad parameter") == GIST_BAD_PARAMETER);
    HOLDS(pwrite(odd, "\0\1", 2, 512 + 6) == 2 && pwrite(odd, "\0\0\0\2", 4, 16656 * 512 + 16) == 4);
    HOLDS(refused("used", "damaged") == GIST_DAMAGED && gist_verify(NULL, "used", NULL, NULL) == GIST_DAMAGED);
    HOLDS(pwrite(odd, "1", 1, 7) == 1 && refused("used", "old version") == GIST_OLD_VERSION && close(odd) == 0);
}

/* What a file holds is lost only where that is asked for, and half an index isn't left. */
void overwriting(void) {
    gist_end end;
    gist_index *index = fresh("kept", 16, 4);
    gist_entry it = entry_of(0);
    HOLDS(gist_begin(index, 1) == GIST_OK && gist_insert(index, 1, it.row, it.box) == GIST_OK);
    HOLDS(gist_commit(index, 1, NULL) == GIST_OK);
    HOLDS(gist_format(NULL, "kept", 8, 4, GIST_OVERWRITE, &end) == GIST_DEVICE && strstr(end.sentence, "in use"));
    HOLDS(gist_close(index, NULL) == GIST_OK);
    HOLDS(gist_format(NULL, "kept", 8, 4, 0, &end) == GIST_SYSTEM && errno == EEXIST);
    HOLDS(strcmp(end.sentence, "kept: it isn't empty, and wasn't to be overwritten") == 0);
    HOLDS(gist_format(NULL, "kept", 8, 4, 0, NULL) == GIST_SYSTEM && errno == EEXIST);
    HOLDS(gist_format(NULL, "kept", 8, 4, 4, NULL) == GIST_SYSTEM && errno == EINVAL);
    HOLDS(found_in("kept") == 1);
    HOLDS(gist_format(NULL, "kept", 8, 4, GIST_OVERWRITE, NULL) == GIST_OK && found_in("kept") == 0);
    int empty = open("empty", O_WRONLY | O_CREAT | O_CLOEXEC, 0600);
    HOLDS(close(empty) == 0 && gist_format(NULL, "empty", 8, 4, 0, NULL) == GIST_OK && found_in("empty") == 0);
    HOLDS(gist_format(NULL, "new", 7, 4, 0, &end) == GIST_BAD_PARAMETER && end.sentence[0] && !is_there("new"));
    HOLDS(gist_format(NULL, "new", 65537, 4, 0, NULL) == GIST_BAD_PARAMETER);
    HOLDS(gist_format(NULL, "new", 8, 3, 0, NULL) == GIST_BAD_PARAMETER);
    HOLDS(gist_format(NULL, "new", 8, 101, 0, NULL) == GIST_BAD_PARAMETER && !is_there("new"));
    HOLDS(gist_format(NULL, "no/such", 8, 4, 0, &end) == GIST_DEVICE && strstr(end.sentence, "No such file"));
    HOLDS(gist_format(NULL, ".", 8, 4, 0, NULL) == GIST_DEVICE && is_there("."));
    HOLDS(symlink("behind", "link") == 0 && gist_format(NULL, "link", 8, 4, 0, NULL) == GIST_OK && is_there("behind"));
}

void counts(void) {
    gist_stats stats;
    gist_counts few;
    gist_end end;
    gist_entry entries[300];
    gist_index *index = fresh("counted", 128, 10);
    fill(entries, 0, 300);
    for (int commit = 0; commit < 3; commit++) {
        HOLDS(gist_begin(index, 1) == GIST_OK);
        HOLDS(gist_insert_many(index, 1, entries + 100 * commit, 100, NULL) == GIST_OK);
        HOLDS(gist_commit(index, 1, NULL) == GIST_OK);
    }
    HOLDS(gist_close(index, &end) == GIST_OK && end.status == 0 && !end.sentence[0]);
    HOLDS(gist_stat(NULL, "counted", &stats, &end) == GIST_OK && stats.pages == 128 && stats.fanout == 10);
    HOLDS(stats.key_class == 1 && stats.counts.entries == 300 && stats.counts.commits == 3 && stats.counts.used > 30);
    HOLDS(gist_verify(NULL, "counted", &few, NULL) == GIST_OK && few.entries == 300 && few.used == stats.counts.used);
    HOLDS(gist_verify(NULL, "none", &few, &end) == GIST_DEVICE && few.entries == 0 && strstr(end.sentence, "none"));
    HOLDS(strcmp(gist_version(), GIST_VERSION) == 0);
}

/* Commits until a call of the file fails: from then on the index only refuses, and all that was answered is there. */
static void until_full(void) {
    gist_index *index = opened("full");
    uint64_t kept = 0;
    int status = GIST_OK;
    for (; status == GIST_OK && kept < 1000; kept += status == GIST_OK) {
        gist_entry it = entry_of(kept);
        status = gist_begin(index, 1);
        if (status == GIST_OK) status = gist_insert(index, 1, it.row, it.box);
        if (status == GIST_OK) status = gist_commit(index, 1, NULL);
    }
    HOLDS(status == GIST_DEVICE && gist_begin(index, 2) == GIST_FAILED && gist_close(index, NULL) == GIST_FAILED);
}

/* A file that may not grow, or be written. */
void full_disk(void) {
    struct rlimit before, below;
    gist_end end;
    signal(SIGXFSZ, SIG_IGN);
    HOLDS(getrlimit(RLIMIT_FSIZE, &before) == 0);
    below = (struct rlimit){4 << 20, before.rlim_max};
    HOLDS(setrlimit(RLIMIT_FSIZE, &below) == 0);
    HOLDS(gist_format(NULL, "large", 64, 4, 0, &end) == GIST_DEVICE && strstr(end.sentence, "File too large"));
    HOLDS(!is_there("large") && setrlimit(RLIMIT_FSIZE, &before) == 0);
    HOLDS(gist_format(NULL, "full", 64, 100, 0, NULL) == GIST_OK);
    below.rlim_cur = 50000;
    HOLDS(setrlimit(RLIMIT_FSIZE, &below) == 0);
    HOLDS(refused("full", "File too large") == GIST_DEVICE);
    below.rlim_cur = 16640 * 512;
    HOLDS(setrlimit(RLIMIT_FSIZE, &below) == 0);
    until_full();
    HOLDS(setrlimit(RLIMIT_FSIZE, &before) == 0 && found_in("full") > 0);
}

/* No stream is touched, and no file gets the number of one, where they are closed. */
void surroundings(void) {
    int status;
    pid_t child = fork();
    if (child == 0) {
        struct stat it, none;
        gist_index *index;
        for (int stream = 0; stream < 3; stream++) close(stream);
        bool holds = gist_format(NULL, "streams", 16, 4, 0, NULL) == GIST_OK &&
                     gist_open(&index, NULL, "streams", 64, NULL) == GIST_OK && stat("streams", &it) == 0;
        for (int stream = 0; stream < 3; stream++) holds &= fstat(stream, &none) != 0;
        holds &= gist_begin(index, 1) == GIST_OK && gist_insert(index, 1, 0, entry_of(0).box) == GIST_OK &&
                 gist_commit(index, 1, NULL) == GIST_OK && gist_close(index, NULL) == GIST_OK;
        _exit(holds ? 0 : 1);
    }
    HOLDS(waitpid(child, &status, 0) == child && status == 0 && found_in("streams") == 1);
}

#define SENSELESS(call) HOLDS((errno = 0, (call) == GIST_SYSTEM && errno == EINVAL))

void nonsense(void) {
    gist_index *index = fresh("nonsense", 16, 4);
    const gist_entry *found;
    size_t count;
    SENSELESS(gist_begin(NULL, 1));
    SENSELESS(gist_commit(NULL, 1, NULL));
    SENSELESS(gist_abort(NULL, 1));
    SENSELESS(gist_insert(NULL, 1, 1, PLANE));
    SENSELESS(gist_delete(NULL, 1, 1, PLANE));
    SENSELESS(gist_insert_many(NULL, 1, NULL, 0, &count));
    SENSELESS(gist_insert_many(index, 1, NULL, 1, &count));
    SENSELESS(gist_search(NULL, 1, GIST_EQUAL, PLANE, &found, &count));
    SENSELESS(gist_search(index, 1, (enum gist_query)77, PLANE, &found, &count));
    SENSELESS(gist_search(index, 1, (enum gist_query) - 1, PLANE, &found, &count));
    SENSELESS(gist_search(index, 1, GIST_EQUAL, PLANE, NULL, &count));
    SENSELESS(gist_search(index, 1, GIST_EQUAL, PLANE, &found, NULL));
    SENSELESS(gist_search_many(NULL, 1, GIST_EQUAL, &PLANE, 0, NULL, NULL));
    SENSELESS(gist_search_many(index, 1, GIST_EQUAL, NULL, 1, NULL, NULL));
    SENSELESS(gist_search_many(index, 1, (enum gist_query)4, &PLANE, 0, NULL, NULL));
    SENSELESS(gist_open(NULL, NULL, "nonsense", 64, NULL));
    SENSELESS(gist_open(&(gist_index *){NULL}, NULL, NULL, 64, NULL));
    SENSELESS(gist_format(NULL, NULL, 8, 4, 0, NULL));
    SENSELESS(gist_verify(NULL, NULL, NULL, NULL));
    SENSELESS(gist_stat(NULL, "nonsense", NULL, NULL));
    HOLDS(gist_busy(NULL) == 0 && gist_dimensions(NULL) == 0 && gist_close(NULL, NULL) == GIST_OK);
    HOLDS(gist_begin(index, 1) == GIST_OK && gist_insert_many(index, 1, NULL, 0, &count) == GIST_OK && count == 0);
    for (unsigned session = 0; session < 100000; session = 3 * session + 9) {
        HOLDS(gist_search(index, session, GIST_EQUAL, PLANE, &found, &count) == GIST_BAD_SESSION && !found);
        HOLDS(gist_commit(index, session, NULL) == GIST_BAD_SESSION);
    }
    HOLDS(gist_close(index, NULL) == GIST_OK);
}

/* No descriptor is left to open a file with. */
void descriptors_end(void) {
    struct rlimit before, below;
    HOLDS(gist_format(NULL, "descriptors", 16, 4, 0, NULL) == GIST_OK && getrlimit(RLIMIT_NOFILE, &before) == 0);
    below = (struct rlimit){3, before.rlim_max};
    HOLDS(setrlimit(RLIMIT_NOFILE, &below) == 0);
    HOLDS(refused("descriptors", "Too many open files") == GIST_DEVICE);
    HOLDS(setrlimit(RLIMIT_NOFILE, &before) == 0 && found_in("descriptors") == 0);
    for (int i = 0; i < 100; i++) HOLDS(gist_close(opened("descriptors"), NULL) == GIST_OK);
}

/* A search whose answer has no room is refused, and the index goes on. */
void memory_ends(void) {
#ifndef __SANITIZE_ADDRESS__
    gist_entry entries[500];
    const gist_entry *found;
    struct rlimit before, below;
    size_t count;
    if (getenv("UNDER_VALGRIND")) return;
    gist_index *index = fresh("memory", 512, 100);
    for (uint64_t from = 0; from < 10000; from += 500) {
        fill(entries, from, 500);
        HOLDS(gist_begin(index, 1) == GIST_OK && gist_insert_many(index, 1, entries, 500, NULL) == GIST_OK);
        HOLDS(gist_commit(index, 1, NULL) == GIST_OK);
    }
    HOLDS(gist_begin(index, 1) == GIST_OK && getrlimit(RLIMIT_AS, &before) == 0);
    below = (struct rlimit){1 << 20, before.rlim_max};
    HOLDS(setrlimit(RLIMIT_AS, &below) == 0);
    void **all = NULL, **some;
    for (size_t size = 1 << 20; size >= sizeof *all; size /= 2)
        for (; (some = malloc(size)); all = some) *some = all;
    int status = gist_search(index, 1, GIST_OVERLAP, PLANE, &found, &count);
    gist_index *other;
    int opening = gist_open(&other, NULL, "nowhere", 64, NULL), laying = gist_format(NULL, "new", 64, 4, 0, NULL);
    HOLDS(setrlimit(RLIMIT_AS, &before) == 0);
    for (; all; all = some) {
        some = *all;
        free(all);
    }
    HOLDS(status == GIST_MEMORY && !found && count == 0 && opening == GIST_MEMORY && laying == GIST_MEMORY);
    HOLDS(!is_there("new"));
    HOLDS(gist_search(index, 1, GIST_EQUAL, entries[0].box, &found, &count) == GIST_OK && count == 1);
    HOLDS(gist_search(index, 1, GIST_OVERLAP, PLANE, &found, &count) == GIST_OK && count == 10000);
    HOLDS(gist_close(index, NULL) == GIST_OK);
#endif
}
