/* Opens the file of an index, and lays a new one down; gist.h and gist_client.h say what each call does. */
#define _GNU_SOURCE
#include "index.h"

#include <errno.h>
#include <stdio.h>
#include <sys/stat.h>
#include <unistd.h>

/* How many sectors a page has; the most sectors that an index takes; the most frames, and how many a test has. */
enum { PAGE_SECTORS = 8, MOST_SECTORS = 540936, MOST_FRAMES = 4096, TEST_FRAMES = 64 };

/* Opens a file for an index, and makes its handle. */
static int begin(gist_index *index, const char *path, enum gist_access access, uint64_t *size, bool *is_made) {
    int told = gist_file_open(&index->file, path, access, size, is_made);
    return told == GIST_OK ? (int)gx_c_create(&index->handle) : told;
}

/* Reads the whole file of an index, or as much of it as an index has at most. */
static int load(gist_index *index, const char *path, enum gist_access access) {
    uint64_t size = 0, most = (uint64_t)MOST_SECTORS * GIST_SECTOR;
    bool is_made;
    int told = begin(index, path, access, &size, &is_made);
    if (told != GIST_OK) return told;
    if (size > most) size = most;
    return gist_file_load(&index->file, &index->handle, size, size);
}

/* Opens the index on the device, by the class of keys that it says. */
static int open_device(gist_index *index, unsigned frames) {
    uint16_t of = 0;
    int told = (int)gx_c_class(&index->handle, &of);
    if (told != GIST_OK) return told;
    if (of == 2) return GIST_BAD_PARAMETER;
    index->dimensions = of == 3 ? 3 : 2;
    told = (int)(of == 3 ? gx_c_open3(&index->handle, frames) : gx_c_open(&index->handle, frames));
    return gist_index_finish(index, (unsigned)told);
}

/* The frames of an opening: as many as the file says that it has pages, where the caller names none. */
static unsigned frames_of(gist_file *file, unsigned frames) {
    if (frames) return frames;
    uint32_t pages = gist_file_parameters(file).pages;
    return pages < 16 ? 16 : pages > MOST_FRAMES ? MOST_FRAMES : pages;
}

int gist_open(gist_index **index, const char *program, const char *path, unsigned frames, gist_end *end) {
    (void)program;
    if (end) *end = (gist_end){0};
    if (index) *index = NULL;
    if (!index || !path) return gist_index_invalid();
    gist_index *it = gist_index_new();
    if (!it) return gist_index_say(GIST_MEMORY, path, 0, end);
    int told = load(it, path, GIST_WRITE);
    if (told == GIST_OK) told = open_device(it, frames_of(&it->file, frames));
    int why = it->file.why;
    if (told == GIST_OK) *index = it;
    else gist_index_free(it);
    return gist_index_say(told, path, why, end);
}

/* Lays an index down on the device of a file that has `size` bytes. */
static int lay(gist_index *index, uint64_t size, unsigned pages, unsigned fanout, bool space) {
    uint64_t whole = (GIST_PAGES_AT + PAGE_SECTORS * (uint64_t)pages) * GIST_SECTOR;
    if (size < whole && !gist_file_extend(&index->file, whole)) return GIST_DEVICE;
    int told = gist_file_load(&index->file, &index->handle, size < whole ? size : whole, whole);
    if (told != GIST_OK) return told;
    uint16_t most = (uint16_t)fanout;
    unsigned laid = space ? gx_c_format3(&index->handle, pages, most) : gx_c_format(&index->handle, pages, most);
    return gist_index_finish(index, laid);
}

/* Removes the file that a format made and has locked, unless its name is another's by now: half an index would be refused
   as a file that isn't empty. */
static void remove_made(const gist_file *file, const char *path) {
    struct stat its, named;
    if (fstat(file->fd, &its) == 0 && stat(path, &named) == 0 && its.st_ino == named.st_ino && its.st_dev == named.st_dev)
        unlink(path);
}

/* Refuses a file that isn't empty and wasn't to be overwritten, and says so. */
static int refuse_content(const char *path, gist_end *end) {
    if (end) {
        end->status = 1;
        snprintf(end->sentence, sizeof end->sentence, "%s: it isn't empty, and wasn't to be overwritten", path);
    }
    errno = EEXIST;
    return GIST_SYSTEM;
}

int gist_format(const char *program, const char *path, unsigned pages, unsigned fanout, unsigned flags, gist_end *end) {
    (void)program;
    uint64_t size = 0;
    bool is_made = false;
    if (end) *end = (gist_end){0};
    if (!path || (flags & ~(unsigned)(GIST_OVERWRITE | GIST_SPACE))) return gist_index_invalid();
    if (pages < 8 || pages > 65536 || fanout < 4 || fanout > 100)
        return gist_index_say(GIST_BAD_PARAMETER, path, 0, end);
    gist_index *it = gist_index_new();
    if (!it) return gist_index_say(GIST_MEMORY, path, 0, end);
    int told = begin(it, path, GIST_CREATE, &size, &is_made);
    bool is_held = told == GIST_OK && size > 0 && !(flags & GIST_OVERWRITE);
    if (told == GIST_OK && !is_held) told = lay(it, size, pages, fanout, flags & GIST_SPACE);
    int why = it->file.why;
    if (told != GIST_OK && is_made) remove_made(&it->file, path);
    gist_index_free(it);
    return is_held ? refuse_content(path, end) : gist_index_say(told, path, why, end);
}

/* Tests the index on a handle's device. */
static int test_device(gist_index *index, gist_c_report *report) {
    uint16_t of = 0;
    int told = (int)gx_c_class(&index->handle, &of);
    if (told != GIST_OK) return told;
    if (of == 2) return GIST_BAD_PARAMETER;
    return (int)(of == 3 ? gx_c_verify3(&index->handle, TEST_FRAMES, report)
                         : gx_c_verify(&index->handle, TEST_FRAMES, report));
}

int gist_stat(const char *program, const char *path, gist_stats *stats, gist_end *end) {
    (void)program;
    if (end) *end = (gist_end){0};
    if (!stats) return gist_index_invalid();
    *stats = (gist_stats){0};
    if (!path) return gist_index_invalid();
    gist_index *it = gist_index_new();
    if (!it) return gist_index_say(GIST_MEMORY, path, 0, end);
    gist_c_report report = {0, 0, 0};
    int told = load(it, path, GIST_READ);
    if (told == GIST_OK) told = test_device(it, &report);
    gist_parameters of = told == GIST_OK ? gist_file_parameters(&it->file) : (gist_parameters){0, 0, 0};
    int why = it->file.why;
    gist_index_free(it);
    if (told == GIST_OK)
        *stats = (gist_stats){{report.commits, report.entries, report.used}, of.pages, of.fanout, of.key_class};
    return gist_index_say(told, path, why, end);
}

int gist_verify(const char *program, const char *path, gist_counts *counts, gist_end *end) {
    gist_stats stats;
    int told = gist_stat(program, path, &stats, end);
    if (counts) *counts = stats.counts;
    return told;
}
