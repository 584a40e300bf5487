/* Threads that commit to one index, while at random moments images are made of what a stop of the machine would leave of
   its file. Each image is opened, and has to hold what was committed up to some number that is no less than any that was
   acknowledged by then.

   usage: crashes THREADS COMMITS IMAGES [late] [odd]: rounds, in each of which each thread makes so many commits to a new
   index, until there were so many images. With `late` the disk lies, and images have to be lost; with `odd` writes are
   short or interrupted. The last line is `N passed, M failed`. */
#define _GNU_SOURCE
#include "../../c/gist.h"
#include "disk.h"

#include <pthread.h>
#include <stdlib.h>
#include <string.h>
#include <unistd.h>

/* (a session inserts many rows a commit, so that its inserts have to make room in the log while others commit) */
enum { MOST_THREADS = 8, MOST_ROWS = 1 << 16, WAITING = 4, LARGE = 3, LARGE_ROWS = 40 };

/* By which commit a row came, and by which it went; 0: none. */
typedef struct life {
    uint64_t born, died;
} life;

static life lives[MOST_THREADS + 1][MOST_ROWS];

/* An image: what was acknowledged as it was made, and what it holds. */
typedef struct image {
    uint64_t acknowledged, commits;
    int status;
    size_t count;
    uint64_t *rows;
} image;

static image *images;
static unsigned wanted, made, looked, seed = 7;
static uint64_t acknowledged, calls_left = 1;
static gist_index *common;
static unsigned commits_each;
static pthread_cond_t changed = PTHREAD_COND_INITIALIZER;
static pthread_mutex_t queue = PTHREAD_MUTEX_INITIALIZER;
static bool is_over;

static const gist_box ALL = {INT32_MIN, INT32_MIN, INT32_MAX, INT32_MAX};

static gist_box box_of(unsigned session, uint64_t row) {
    int32_t x = (int32_t)(1000000 * session + row % 1000), y = (int32_t)(row / 7);
    return (gist_box){x, y, x + 5, y + 5};
}

/* Makes an image now and then. */
static void look(void) {
    static const unsigned PERCENTS[] = {0, 10, 50, 50, 50, 90, 100};
    char name[32];
    if (--calls_left > 0) return;
    calls_left = 1 + (unsigned)rand_r(&seed) % 24;
    pthread_mutex_lock(&queue);
    while (made == looked + WAITING) pthread_cond_wait(&changed, &queue);
    if (made < wanted) {
        snprintf(name, sizeof name, "image%u", made % WAITING);
        disk_image(name, PERCENTS[(unsigned)rand_r(&seed) % 7], &seed);
        images[made++].acknowledged = acknowledged;
        pthread_cond_broadcast(&changed);
    }
    pthread_mutex_unlock(&queue);
}

/* Whether the program that GIST names, if it names one, counts the same in an image. */
static bool is_same(const char *name, const gist_counts *counts) {
    char command[4096], line[128] = "";
    unsigned long commits = 0, entries = 0;
    if (!getenv("GIST")) return true;
    snprintf(command, sizeof command, "\"$GIST\" verify %s", name);
    FILE *told = popen(command, "re");
    MUST(told);
    bool is_told = fgets(line, sizeof line, told) && sscanf(line, "ok commits %lu entries %lu", &commits, &entries) == 2;
    return pclose(told) == 0 && is_told && commits == counts->commits && entries == counts->entries;
}

/* Opens an image, and keeps what it holds. */
static void open_image(const char *name, image *it) {
    gist_counts counts;
    gist_index *index;
    const gist_entry *found;
    it->status = gist_verify(NULL, name, &counts, NULL);
    it->commits = counts.commits;
    if (it->status == GIST_OK && looked % 8 == 0 && !is_same(name, &counts)) it->status = GIST_PROTOCOL;
    if (it->status != GIST_OK) return;
    it->status = gist_open(&index, NULL, name, 64, NULL);
    if (it->status != GIST_OK) return;
    MUST(gist_begin(index, 1) == GIST_OK && gist_search(index, 1, GIST_OVERLAP, ALL, &found, &it->count) == GIST_OK);
    it->rows = malloc(it->count * sizeof *it->rows + 1);
    MUST(it->rows);
    for (size_t i = 0; i < it->count; i++) it->rows[i] = found[i].row;
    MUST(gist_close(index, NULL) == GIST_OK);
}

static void *look_at_images(void *unused) {
    char name[32];
    (void)unused;
    for (;;) {
        pthread_mutex_lock(&queue);
        while (looked == made && !is_over) pthread_cond_wait(&changed, &queue);
        bool is_done = looked == made;
        pthread_mutex_unlock(&queue);
        if (is_done) return NULL;
        snprintf(name, sizeof name, "image%u", looked % WAITING);
        open_image(name, &images[looked]);
        pthread_mutex_lock(&queue);
        looked++;
        pthread_cond_broadcast(&changed);
        pthread_mutex_unlock(&queue);
    }
}

/* Commits, or gives up, a transaction that inserts the rows from one on, and deletes one that came before. */
static void transact(unsigned session, uint64_t from, unsigned count, uint64_t gone, bool is_kept) {
    uint64_t number = 0;
    MUST(gist_begin(common, session) == GIST_OK);
    for (unsigned i = 0; i < count; i++)
        MUST(gist_insert(common, session, (uint64_t)session << 32 | (from + i), box_of(session, from + i)) == GIST_OK);
    if (gone) MUST(gist_delete(common, session, (uint64_t)session << 32 | gone, box_of(session, gone)) == GIST_OK);
    if (!is_kept) {
        MUST(gist_abort(common, session) == GIST_OK);
        return;
    }
    MUST(gist_commit(common, session, &number) == GIST_OK && number > 0);
    disk_hold();
    if (number > acknowledged) acknowledged = number;
    disk_release();
    for (unsigned i = 0; i < count; i++) lives[session][from + i].born = number;
    if (gone) lives[session][gone].died = number;
}

static void *work(void *its) {
    unsigned session = *(unsigned *)its, random = session;
    uint64_t row = 1;
    for (unsigned done = 0; done < commits_each;) {
        unsigned count = session == LARGE ? LARGE_ROWS : 1 + (unsigned)rand_r(&random) % 3;
        uint64_t gone = row > 20 ? row - 20 : 0;
        bool is_kept = rand_r(&random) % 8 != 0;
        MUST(row + count < MOST_ROWS);
        if (gone && (lives[session][gone].born == 0 || lives[session][gone].died)) gone = 0;
        transact(session, row, count, gone, is_kept);
        row += count;
        done += is_kept;
    }
    return NULL;
}

/* Whether an image holds just what was committed up to its last number, and that number is no less than one that was
   acknowledged. */
static bool is_whole(const image *it) {
    size_t known = 0;
    if (it->status != GIST_OK || it->commits < it->acknowledged) return false;
    for (size_t i = 0; i < it->count; i++) {
        const life *of = &lives[it->rows[i] >> 32][it->rows[i] & (MOST_ROWS - 1)];
        if (of->born == 0 || of->born > it->commits || (of->died && of->died <= it->commits)) return false;
    }
    for (unsigned session = 1; session <= MOST_THREADS; session++)
        for (unsigned row = 0; row < MOST_ROWS; row++) {
            const life *of = &lives[session][row];
            known += of->born && of->born <= it->commits && (!of->died || of->died > it->commits);
        }
    return known == it->count;
}

/* One round: a new index, to which threads commit. */
static void commit_in_threads(unsigned number, disk_faults faults) {
    pthread_t threads[MOST_THREADS], other;
    unsigned sessions[MOST_THREADS];
    memset(lives, 0, sizeof lives);
    acknowledged = 0;
    is_over = false;
    MUST(gist_format(NULL, "it", 1024, 16, GIST_OVERWRITE, NULL) == GIST_OK);
    disk_watch("it");
    disk_set(faults);
    MUST(gist_open(&common, NULL, "it", 16, NULL) == GIST_OK);
    disk_look(look);
    MUST(pthread_create(&other, NULL, look_at_images, NULL) == 0);
    for (unsigned i = 0; i < number; i++) {
        sessions[i] = i + 1;
        MUST(pthread_create(&threads[i], NULL, work, &sessions[i]) == 0);
    }
    for (unsigned i = 0; i < number; i++) MUST(pthread_join(threads[i], NULL) == 0);
    disk_look(NULL);
    pthread_mutex_lock(&queue);
    is_over = true;
    pthread_cond_broadcast(&changed);
    pthread_mutex_unlock(&queue);
    MUST(pthread_join(other, NULL) == 0 && gist_close(common, NULL) == GIST_OK);
}

int main(int count, char **words) {
    disk_faults faults = {.sync_time = 300};
    unsigned passed = 0, judged = 0;
    MUST(count >= 4);
    unsigned number = (unsigned)atoi(words[1]);
    commits_each = (unsigned)atoi(words[2]);
    wanted = (unsigned)atoi(words[3]);
    for (int i = 4; i < count; i++) {
        faults.is_late |= strcmp(words[i], "late") == 0;
        faults.is_odd |= strcmp(words[i], "odd") == 0;
    }
    MUST(number <= MOST_THREADS && wanted > 0 && (images = calloc(wanted, sizeof *images)));
    while (made < wanted) {
        commit_in_threads(number, faults);
        for (; judged < made; judged++) {
            const image *it = &images[judged];
            bool holds = is_whole(it);
            passed += holds;
            if (!holds && !faults.is_late)
                printf("image %u: status %d, %lu commits of %lu, %zu rows\n", judged, it->status,
                       (unsigned long)it->commits, (unsigned long)it->acknowledged, it->count);
            free(it->rows);
        }
    }
    free(images);
    printf("%u passed, %u failed\n", passed, made - passed);
    return passed != made;
}
