/* The client's calls of a file that isn't open: each runs the program to its end. */
#define _GNU_SOURCE
#include "gist_run.h"

#include <errno.h>
#include <fcntl.h>
#include <inttypes.h>
#include <stdbool.h>
#include <string.h>
#include <sys/stat.h>
#include <unistd.h>

/* So much is read of a program at once, and a longer line is passed on in pieces. */
enum { ROOM = 1 << 16 };

/* Hands on lines, but for a refusal, and keeps the last one. Returns whether the stream takes them. */
static bool hand_on(const char *line, const char *behind, FILE *to, char last[GIST_LINE]) {
    bool is_taken = true;
    while (line < behind) {
        const char *ended = memchr(line, '\n', (size_t)(behind - line));
        size_t length = ended ? (size_t)(ended + 1 - line) : (size_t)(behind - line);
        snprintf(last, GIST_LINE, "%.*s", (int)(length < GIST_LINE ? length : GIST_LINE), line);
        if (to && strncmp(last, "refused ", 8) != 0) is_taken = is_taken && fwrite(line, 1, length, to) == length;
        line += length;
    }
    return is_taken;
}

/* Reads all that the program prints, and hands its lines on. Returns whether nothing failed. */
static bool read_through(gist_run *it, FILE *to, char last[GIST_LINE]) {
    char bytes[ROOM];
    size_t length = 0;
    ssize_t got;
    bool is_taken = true;
    do {
        got = gist_run_read(it, bytes + length, ROOM - length);
        length += got > 0 ? (size_t)got : 0;
        const char *ended = got > 0 ? memrchr(bytes, '\n', length) : NULL;
        /* (all at the end, and of a line that fills the room) */
        size_t whole = ended ? (size_t)(ended + 1 - bytes) : got > 0 && length < ROOM ? 0 : length;
        is_taken = hand_on(bytes, bytes + whole, to, last) && is_taken;
        memmove(bytes, bytes + whole, length - whole);
        length -= whole;
    } while (got > 0);
    return is_taken && got == 0;
}

/* Runs a program that asks nothing to its end. `to`, if it isn't NULL, gets what it prints, but for a refusal. */
static int run_through(const char *program, const char **words, FILE *to, char last[GIST_LINE], gist_end *end) {
    gist_run it;
    gist_end own;
    if (!end) end = &own;
    *end = (gist_end){0};
    last[0] = 0;
    if (gist_run_start(&it, program, words) != GIST_OK) return GIST_SYSTEM;
    gist_run_close_input(&it);
    bool is_read = read_through(&it, to, last);
    int failed = errno, told = gist_run_finish(&it, last, end);
    if (told != GIST_OK || is_read) return told;
    errno = failed;
    return GIST_SYSTEM;
}

/* Makes the file, if there is none. Returns whether an index may be laid down in it: it is new, it is empty, or it is
   left to the program to say why it can't be made. */
static bool may_lay_down(const char *path, bool *is_made) {
    struct stat found;
    int made = open(path, O_RDWR | O_CREAT | O_EXCL | O_NOCTTY | O_CLOEXEC, 0666);
    *is_made = made >= 0;
    if (*is_made) close(made);
    if (*is_made || errno != EEXIST || stat(path, &found) != 0) return true;
    return S_ISREG(found.st_mode) && found.st_size == 0;
}

/* Refuses a file that isn't empty and wasn't to be overwritten, and says so. */
static int refuse_content(const char *path, gist_end *end) {
    if (end) snprintf(end->sentence, sizeof end->sentence, "%s: it isn't empty, and wasn't to be overwritten", path);
    errno = EEXIST;
    return GIST_SYSTEM;
}

/* Removes the file that a format made and left empty. */
static void remove_empty(const char *path) {
    struct stat found;
    int failed = errno;
    if (stat(path, &found) == 0 && found.st_size == 0) unlink(path);
    errno = failed;
}

/* Removes the file that a migration made; half an index would be refused as a file that isn't empty. */
static void remove_made(const char *path) {
    int failed = errno;
    unlink(path);
    errno = failed;
}

int gist_format(const char *program, const char *path, unsigned pages, unsigned fanout, unsigned flags, gist_end *end) {
    char count[16], most[16], last[GIST_LINE];
    bool is_made = false;
    if (end) *end = (gist_end){0};
    if (!path || (flags & ~(unsigned)(GIST_OVERWRITE | GIST_SPACE))) return gist_run_invalid();
    if (!(flags & GIST_OVERWRITE) && !may_lay_down(path, &is_made)) return refuse_content(path, end);
    snprintf(count, sizeof count, "%u", pages);
    snprintf(most, sizeof most, "%u", fanout);
    /* (a program that has no boxes of space doesn't know the word) */
    const char *of_plane[] = {NULL, "format", "--", path, count, most, NULL};
    const char *of_space[] = {NULL, "format", "--class", "3", "--", path, count, most, NULL};
    int told = run_through(program, flags & GIST_SPACE ? of_space : of_plane, NULL, last, end);
    if (told != GIST_OK && is_made) remove_empty(path);
    return told;
}

int gist_migrate(const char *program, const char *old, const char *path, unsigned flags, gist_migrated *migrated,
                 gist_end *end) {
    char last[GIST_LINE];
    bool is_made = false;
    gist_migrated found = {0};
    if (end) *end = (gist_end){0};
    if (migrated) *migrated = found;
    if (!old || !path || (flags & ~(unsigned)GIST_OVERWRITE)) return gist_run_invalid();
    if (!(flags & GIST_OVERWRITE) && !may_lay_down(path, &is_made)) return refuse_content(path, end);
    const char *words[] = {NULL, "migrate", "--", old, path, NULL};
    int told = run_through(program, words, NULL, last, end);
    if (told == GIST_OK &&
        sscanf(last, "migrated commits %" SCNu64 " used %" SCNu32, &found.commits, &found.used) != 2)
        told = GIST_PROTOCOL;
    if (told != GIST_OK && is_made) remove_made(path);
    if (told == GIST_OK && migrated) *migrated = found;
    return told;
}

int gist_dump(const char *program, const char *path, FILE *to, gist_end *end) {
    char last[GIST_LINE];
    if (end) *end = (gist_end){0};
    if (!path || !to) return gist_run_invalid();
    return run_through(program, (const char *[]){NULL, "dump", "--", path, NULL}, to, last, end);
}

int gist_verify(const char *program, const char *path, gist_counts *counts, gist_end *end) {
    char last[GIST_LINE];
    gist_counts found = {0};
    if (end) *end = (gist_end){0};
    if (counts) *counts = found;
    if (!path) return gist_run_invalid();
    int told = run_through(program, (const char *[]){NULL, "verify", "--", path, NULL}, NULL, last, end);
    if (told != GIST_OK) return told;
    if (sscanf(last, "ok commits %" SCNu64 " entries %" SCNu64 " used %" SCNu32, &found.commits, &found.entries,
               &found.used) != 3)
        return GIST_PROTOCOL;
    if (counts) *counts = found;
    return GIST_OK;
}

/* Reads the numbers of sector 1, which no program changes but by a format: pages u32, fanout u16, class of keys u16. */
static int read_numbers(const char *path, gist_stats *stats) {
    unsigned char it[8];
    int file = open(path, O_RDONLY | O_NOCTTY | O_CLOEXEC);
    if (file < 0) return GIST_SYSTEM;
    ssize_t got = pread(file, it, sizeof it, 512);
    int failed = got < 0 ? errno : EIO;
    close(file);
    errno = failed;
    if (got != sizeof it) return GIST_SYSTEM;
    stats->pages = (uint32_t)it[0] << 24 | (uint32_t)it[1] << 16 | (uint32_t)it[2] << 8 | it[3];
    stats->fanout = (uint32_t)it[4] << 8 | it[5];
    stats->key_class = (uint32_t)it[6] << 8 | it[7];
    return GIST_OK;
}

unsigned gist_run_frames(const char *path) {
    gist_stats stats;
    if (read_numbers(path, &stats) != GIST_OK) return 64;
    return stats.pages < 16 ? 16 : stats.pages > 4096 ? 4096 : stats.pages;
}

int gist_run_dimensions(const char *path, unsigned *dimensions) {
    gist_stats stats;
    int told = read_numbers(path, &stats);
    *dimensions = told != GIST_OK ? 0 : stats.key_class == 1 ? 2 : stats.key_class == 3 ? 3 : 0;
    return told == GIST_OK && *dimensions == 0 ? GIST_PROTOCOL : told;
}

int gist_stat(const char *program, const char *path, gist_stats *stats, gist_end *end) {
    if (end) *end = (gist_end){0};
    if (!stats) return gist_run_invalid();
    *stats = (gist_stats){0};
    int told = gist_verify(program, path, &stats->counts, end);
    return told == GIST_OK ? read_numbers(path, stats) : told;
}
