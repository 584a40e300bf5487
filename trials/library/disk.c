#define _GNU_SOURCE
#include "disk.h"

#include <errno.h>
#include <fcntl.h>
#include <pthread.h>
#include <stdio.h>
#include <stdlib.h>
#include <string.h>
#include <sys/stat.h>
#include <unistd.h>

enum { SECTOR = 512 };

/* A sector as a write that wasn't synced left it. */
typedef struct version {
    uint64_t write; /* the number of the write */
    uint64_t sector;
    uint8_t bytes[SECTOR];
} version;

ssize_t __real_pwrite(int fd, const void *bytes, size_t length, off_t place);
int __real_fdatasync(int fd);

static pthread_mutex_t turn = PTHREAD_MUTEX_INITIALIZER;
static struct stat watched;
static uint8_t *synced; /* the file as it is synced */
static size_t size;
static version *open_versions;
static size_t count, room;
static uint64_t writes, late;
static disk_calls calls;
static disk_faults how;
static void (*looking)(void);

void must(bool holds, const char *what) {
    if (holds) return;
    fprintf(stderr, "trial: %s: %s\n", what, strerror(errno));
    _exit(2);
}

void disk_hold(void) {
    pthread_mutex_lock(&turn);
}

void disk_release(void) {
    pthread_mutex_unlock(&turn);
}

void disk_watch(const char *path) {
    int fd = open(path, O_RDONLY | O_CLOEXEC);
    disk_hold();
    MUST(fd >= 0 && fstat(fd, &watched) == 0);
    size = (size_t)watched.st_size;
    synced = realloc(synced, size);
    MUST(synced && pread(fd, synced, size, 0) == (ssize_t)size && close(fd) == 0);
    count = 0;
    writes = late = 0;
    calls = (disk_calls){0, 0};
    disk_release();
}

disk_calls disk_counted(void) {
    disk_hold();
    disk_calls told = calls;
    disk_release();
    return told;
}

void disk_set(disk_faults faults) {
    disk_hold();
    how = faults;
    disk_release();
}

void disk_look(void (*look)(void)) {
    disk_hold();
    looking = look;
    disk_release();
}

static bool is_watched(int fd) {
    struct stat it;
    return synced && fstat(fd, &it) == 0 && it.st_ino == watched.st_ino && it.st_dev == watched.st_dev;
}

static unsigned chance(unsigned below) {
    static unsigned seed = 1;
    return (unsigned)rand_r(&seed) % below;
}

/* Whether this call, which is counted, is the one that fails. */
static bool fails(void) {
    return how.failing && calls.writes + calls.syncs == how.failing;
}

static void keep(const uint8_t *bytes, size_t length, uint64_t place) {
    MUST(length % SECTOR == 0 && place % SECTOR == 0 && place + length <= size);
    for (size_t at = 0; at < length; at += SECTOR) {
        if (count == room) {
            room = room ? 2 * room : 1024;
            open_versions = realloc(open_versions, room * sizeof *open_versions);
            MUST(open_versions);
        }
        version *it = &open_versions[count++];
        it->write = writes;
        it->sector = (place + at) / SECTOR;
        memcpy(it->bytes, bytes + at, SECTOR);
    }
}

ssize_t __wrap_pwrite(int fd, const void *bytes, size_t length, off_t place) {
    if (!is_watched(fd)) return __real_pwrite(fd, bytes, length, place);
    disk_hold();
    unsigned odd = how.is_odd ? chance(4) : 4;
    ssize_t done = -1;
    calls.writes++;
    errno = odd == 0 ? EINTR : EIO;
    if (odd != 0 && !fails()) {
        if (odd == 1 && length > SECTOR) length = SECTOR * (1 + chance((unsigned)(length / SECTOR)));
        writes++;
        keep(bytes, length, (uint64_t)place);
        done = __real_pwrite(fd, bytes, length, place);
        MUST(done == (ssize_t)length);
    }
    int why = errno;
    if (looking) looking();
    disk_release();
    errno = why;
    return done;
}

/* What was written by a write of at most this number is durable. */
static void settle(uint64_t write) {
    size_t kept = 0;
    for (size_t i = 0; i < count; i++) {
        version *it = &open_versions[i];
        if (it->write <= write) memcpy(synced + it->sector * SECTOR, it->bytes, SECTOR);
        else open_versions[kept++] = *it;
    }
    count = kept;
}

/* A sync that fails may have dropped what it was to write: no later one makes that durable. */
static void forget(uint64_t write) {
    for (size_t i = 0; i < count; i++)
        if (open_versions[i].write <= write) open_versions[i].write = UINT64_MAX;
}

int __wrap_fdatasync(int fd) {
    if (!is_watched(fd)) return __real_fdatasync(fd);
    disk_hold();
    calls.syncs++;
    uint64_t write = writes, durable = how.is_late ? late : write;
    unsigned time = how.sync_time ? how.sync_time / 2 + chance(how.sync_time / 2 + 1) : 0;
    int done = 0;
    if (fails()) {
        forget(write);
        done = -1;
    }
    disk_release();
    if (time) usleep(time);
    disk_hold();
    if (done == 0) settle(durable);
    late = write;
    if (looking) looking();
    disk_release();
    errno = EIO;
    return done;
}

void disk_image(const char *path, unsigned percent, unsigned *seed) {
    int fd = open(path, O_RDWR | O_CREAT | O_TRUNC | O_CLOEXEC, 0600);
    MUST(fd >= 0 && __real_pwrite(fd, synced, size, 0) == (ssize_t)size);
    for (size_t i = 0; i < count; i++)
        if ((unsigned)rand_r(seed) % 100 < percent) {
            off_t place = (off_t)(open_versions[i].sector * SECTOR);
            MUST(__real_pwrite(fd, open_versions[i].bytes, SECTOR, place) == SECTOR);
        }
    MUST(close(fd) == 0);
}
