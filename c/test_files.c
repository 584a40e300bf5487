/* Tests of files: what is opened, formatted, verified and printed, and what isn't. */
#define _GNU_SOURCE
#include "test.h"

#include <errno.h>
#include <fcntl.h>
#include <stdlib.h>
#include <string.h>
#include <sys/wait.h>
#include <unistd.h>

void openings(void) {
    gist_index *index, *other = NULL;
    gist_end end;
    HOLDS(gist_open(&other, NULL, "nowhere", 64, &end) == GIST_DEVICE && !other && end.status == 1);
    HOLDS(strstr(end.sentence, "nowhere: no such file or directory"));
    HOLDS(gist_open(&other, NULL, "nowhere", 15, &end) == GIST_ENDED && !other && end.status == 2);
    /* (as many frames as it has pages) */
    HOLDS(gist_format(NULL, "whole", 16, 4, 0, NULL) == GIST_OK && gist_open(&other, NULL, "whole", 0, &end) == GIST_OK);
    HOLDS(gist_close(other, NULL) == GIST_OK);
    other = NULL;
    HOLDS(gist_open(&other, NULL, "nowhere", 0, &end) == GIST_DEVICE && !other);
    HOLDS(gist_format(NULL, "few", 7, 4, 0, &end) == GIST_ENDED && end.status == 2 &&
          strstr(end.sentence, "7 is not in"));
    HOLDS(gist_format(NULL, "no/such", 8, 4, 0, &end) == GIST_DEVICE && end.status == 1);
    /* (under valgrind a spawned process can't say that it found no program) */
    if (!getenv("UNDER_VALGRIND")) {
        HOLDS(gist_open(&other, "no program", "nowhere", 64, &end) == GIST_SYSTEM && errno == ENOENT && !other);
        HOLDS(gist_format("/", "nowhere", 8, 4, 0, &end) == GIST_SYSTEM && errno == EACCES);
    }
    int zeros = open("zeros", O_RDWR | O_CREAT | O_CLOEXEC, 0600);
    HOLDS(ftruncate(zeros, 2048000) == 0 && gist_open(&other, NULL, "zeros", 64, &end) == GIST_TOO_SMALL);
    HOLDS(ftruncate(zeros, 512 * 16776) == 0 && gist_open(&other, NULL, "zeros", 64, NULL) == GIST_NOT_FORMATTED);
    HOLDS(close(zeros) == 0);
    index = fresh("-used", 16, 4);
    HOLDS(gist_open(&other, NULL, "-used", 64, &end) == GIST_DEVICE && strstr(end.sentence, "in use"));
    HOLDS(gist_begin(index, 1) == GIST_OK && gist_insert(index, 1, 7, (gist_box){0, 0, 10, 10}) == GIST_OK);
    HOLDS(gist_commit(index, 1, NULL) == GIST_OK);
    HOLDS(gist_close(index, &end) == GIST_OK && end.status == 0);
    char *text = NULL;
    size_t length;
    FILE *tree = open_memstream(&text, &length);
    HOLDS(gist_dump(NULL, "-used", tree, &end) == GIST_OK);
    HOLDS(fclose(tree) == 0);
    HOLDS(strncmp(text, "commits 1 used 2 counter 0\npage 1 ", 34) == 0 && strstr(text, "\nentry 7 0 0 10 10 live\n"));
    free(text);
    tree = open_memstream(&text, &length);
    HOLDS(gist_dump(NULL, "zeros", tree, &end) == GIST_NOT_FORMATTED);
    HOLDS(fclose(tree) == 0 && length == 0);
    free(text);
    int odd = open("-used", O_RDWR | O_CLOEXEC);
    HOLDS(pwrite(odd, "\0\2", 2, 512 + 6) == 2 && gist_open(&other, NULL, "-used", 64, &end) == GIST_BAD_PARAMETER);
    HOLDS(pwrite(odd, "\0\1", 2, 512 + 6) == 2 && pwrite(odd, "\0\0\0\2", 4, 16656 * 512 + 16) == 4);
    HOLDS(gist_open(&other, NULL, "-used", 64, &end) == GIST_DAMAGED && strstr(end.sentence, "page 2"));
    HOLDS(pwrite(odd, "1", 1, 7) == 1 && gist_open(&other, NULL, "-used", 64, &end) == GIST_OLD_VERSION);
    HOLDS(close(odd) == 0);
}

static bool is_there(const char *path) {
    return access(path, F_OK) == 0;
}

/* What a file holds is lost only if that is asked for. */
void overwriting(void) {
    gist_end end;
    gist_index *index = fresh("kept", 16, 4);
    gist_entry it = entry_of(0);
    HOLDS(gist_begin(index, 1) == GIST_OK && gist_insert(index, 1, it.row, it.box) == GIST_OK);
    HOLDS(gist_commit(index, 1, NULL) == GIST_OK && gist_close(index, NULL) == GIST_OK);
    HOLDS(gist_format(NULL, "kept", 8, 4, 0, &end) == GIST_SYSTEM && errno == EEXIST);
    HOLDS(strcmp(end.sentence, "kept: it isn't empty, and wasn't to be overwritten") == 0);
    HOLDS(gist_format(NULL, "kept", 8, 4, 0, NULL) == GIST_SYSTEM && errno == EEXIST);
    HOLDS(gist_format(NULL, ".", 8, 4, 0, NULL) == GIST_SYSTEM && errno == EEXIST);
    HOLDS(gist_format(NULL, "kept", 8, 4, 4, NULL) == GIST_SYSTEM && errno == EINVAL);
    HOLDS(found_in("kept") == 1);
    HOLDS(gist_format(NULL, "kept", 8, 4, GIST_OVERWRITE, NULL) == GIST_OK && found_in("kept") == 0);
    /* one that is empty, and one that isn't made after all */
    int empty = open("empty", O_WRONLY | O_CREAT | O_CLOEXEC, 0600);
    HOLDS(close(empty) == 0 && gist_format(NULL, "empty", 8, 4, 0, NULL) == GIST_OK && found_in("empty") == 0);
    HOLDS(gist_format(NULL, "new", 7, 4, 0, NULL) == GIST_ENDED && !is_there("new"));
    HOLDS(gist_format("/bin/false", "new", 8, 4, 0, NULL) == GIST_ENDED && !is_there("new"));
    HOLDS(gist_format("/", "new", 8, 4, 0, NULL) != GIST_OK && !is_there("new"));
    HOLDS(gist_format(NULL, "new", 8, 4, 0, NULL) == GIST_OK && is_there("new"));
}

/* A fresh index of the format's first version, for 8 pages of 4 entries. */
static void make_older(const char *path) {
    static const struct {
        int sector, at;
        const char *bytes;
        size_t length;
    } parts[] = {
        {0, 0, "GISTRT01", 8},
        {1, 0, "\0\0\0\10\0\4\0\1", 8},
        {8, 0, "\247", 1},
        {40, 0, "\0\0\0\35\5\0\0\0\0\0\0\0\0\0\0\0\0\0\0\0\0\0\0\0\2\0\0\0\0\0\0\0\1", 33},
        {4168, 0, "\0\1\0\1\17\354", 6},
        {4168, 20, "\0\0\0\1", 4},
        {4168, 32, "\17\354\0\24", 4},
        {4168, 4092, "\0\0\0\2", 4},
        {4176, 4, "\20\0", 2},
        {4176, 20, "\0\0\0\2", 4},
    };
    int file = open(path, O_RDWR | O_CREAT | O_CLOEXEC, 0600);
    HOLDS(ftruncate(file, 512 * 4232) == 0);
    for (size_t i = 0; i < sizeof parts / sizeof *parts; i++)
        HOLDS(pwrite(file, parts[i].bytes, parts[i].length, 512 * parts[i].sector + parts[i].at) ==
              (ssize_t)parts[i].length);
    HOLDS(close(file) == 0);
}

void migrations(void) {
    gist_migrated found;
    gist_index *index = NULL;
    gist_end end;
    make_older("older");
    HOLDS(gist_open(&index, NULL, "older", 64, &end) == GIST_OLD_VERSION && !index);
    HOLDS(gist_migrate(NULL, "older", "newer", 0, &found, &end) == GIST_OK && end.status == 0);
    HOLDS(found.commits == 0 && found.used == 2 && found_in("newer") == 0);
    /* what a file holds is lost only if that is asked for */
    HOLDS(gist_migrate(NULL, "older", "newer", 0, &found, &end) == GIST_SYSTEM && errno == EEXIST && found.used == 0);
    HOLDS(strcmp(end.sentence, "newer: it isn't empty, and wasn't to be overwritten") == 0);
    HOLDS(gist_migrate(NULL, "older", "newer", GIST_OVERWRITE, NULL, NULL) == GIST_OK);
    HOLDS(gist_migrate(NULL, "older", "newer", GIST_SPACE, NULL, NULL) == GIST_SYSTEM && errno == EINVAL);
    HOLDS(gist_migrate(NULL, "older", NULL, 0, NULL, NULL) == GIST_SYSTEM && errno == EINVAL);
    /* a file that was made for it goes again */
    HOLDS(gist_migrate(NULL, "newer", "third", 0, &found, &end) == GIST_NOT_FORMATTED && !is_there("third"));
    HOLDS(gist_migrate(NULL, "nowhere", "third", 0, &found, &end) == GIST_DEVICE && !is_there("third"));
    HOLDS(gist_migrate(NULL, "older", "older", GIST_OVERWRITE, &found, &end) == GIST_DEVICE);
    HOLDS(strstr(end.sentence, "in use") && is_there("older"));
    HOLDS(gist_migrate("/bin/echo", "older", "third", 0, &found, NULL) == GIST_PROTOCOL && !is_there("third"));
}

void counts(void) {
    gist_entry entries[500];
    gist_counts found;
    gist_stats stats;
    gist_end end;
    gist_index *index = fresh("counts", 256, 16);
    HOLDS(gist_verify(NULL, "counts", &found, &end) == GIST_DEVICE && found.used == 0 &&
          strstr(end.sentence, "in use"));
    HOLDS(gist_stat(NULL, "counts", &stats, NULL) == GIST_DEVICE && stats.pages == 0);
    HOLDS(gist_close(index, NULL) == GIST_OK);
    HOLDS(gist_verify(NULL, "counts", &found, NULL) == GIST_OK);
    HOLDS(found.commits == 0 && found.entries == 0 && found.used == 2);
    index = opened("counts");
    fill(entries, 0, 500);
    for (int i = 0; i < 2; i++) {
        HOLDS(gist_begin(index, 1) == GIST_OK && gist_insert_many(index, 1, entries + 250 * i, 250, NULL) == GIST_OK);
        HOLDS(gist_commit(index, 1, NULL) == GIST_OK);
    }
    HOLDS(gist_close(index, NULL) == GIST_OK);
    HOLDS(gist_stat(NULL, "counts", &stats, &end) == GIST_OK && end.status == 0);
    HOLDS(stats.pages == 256 && stats.fanout == 16 && stats.key_class == 1);
    HOLDS(stats.counts.commits == 2 && stats.counts.entries == 500);
    HOLDS(stats.counts.used > 500 / 16 && stats.counts.used <= 256);
    HOLDS(gist_verify(NULL, "counts", NULL, NULL) == GIST_OK);
    HOLDS(gist_stat(NULL, "nowhere", &stats, NULL) == GIST_DEVICE);
    HOLDS(gist_verify("/bin/echo", "counts", &found, NULL) == GIST_PROTOCOL && found.used == 0);
}

/* The example, built over what `make install` installs, makes its file once. */
void installed(void) {
    HOLDS(system("\"$EXAMPLE\" parks > parks.out") == 0);
    HOLDS(system("printf '%s\\n' 'committed 1' 'park 1 from (100, 100) to (180, 160)' "
                 "'park 3 from (150, 140) to (420, 300)' | cmp -s - parks.out") == 0);
    HOLDS(WEXITSTATUS(system("\"$EXAMPLE\" parks 2> parks.out")) == 1 &&
          system("grep -q 'overwritten$' parks.out") == 0);
    HOLDS(strcmp(gist_version(), GIST_VERSION) == 0);
}
