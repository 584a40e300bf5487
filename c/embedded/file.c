/* A file that has the sectors of a device: it is read into memory once, and then has the device's writes and syncs. */
#define _GNU_SOURCE
#include "file.h"

#include <errno.h>
#include <fcntl.h>
#include <stdlib.h>
#include <string.h>
#include <sys/file.h>
#include <sys/stat.h>
#include <unistd.h>

/* So many writes that aren't durable are synced ahead of a step that may sync them. */
enum { MANY_WRITES = 64 };

/* Leaves the standard streams' numbers alone: a file that got one of them is opened behind them. */
static int beside_streams(int fd) {
    if (fd < 0 || fd > 2) return fd;
    int moved = fcntl(fd, F_DUPFD_CLOEXEC, 3), why = errno;
    close(fd);
    errno = why;
    return moved;
}

/* (what isn't a regular file is refused without waiting for its other end) */
static int open_at(const char *path, int flags) {
    int fd;
    do fd = open(path, flags | O_CLOEXEC | O_NOCTTY | O_NONBLOCK, 0666);
    while (fd < 0 && errno == EINTR);
    return beside_streams(fd);
}

/* Opens a file, or makes it where that is wanted. */
static int opened(const char *path, enum gist_access access, bool *is_made) {
    int fd = access == GIST_CREATE ? open_at(path, O_RDWR | O_CREAT | O_EXCL) : -1;
    *is_made = fd >= 0;
    if (access != GIST_CREATE) return open_at(path, access == GIST_READ ? O_RDONLY : O_RDWR);
    return fd >= 0 || errno != EEXIST ? fd : open_at(path, O_RDWR | O_CREAT);
}

/* Locks a file that is a regular one. */
static bool locked(int fd, enum gist_access access, struct stat *it) {
    if (fstat(fd, it) != 0) return false;
    if (!S_ISREG(it->st_mode)) {
        errno = S_ISDIR(it->st_mode) ? EISDIR : EINVAL;
        return false;
    }
    int done;
    do done = flock(fd, (access == GIST_READ ? LOCK_SH : LOCK_EX) | LOCK_NB);
    while (done != 0 && errno == EINTR);
    return done == 0 && fstat(fd, it) == 0;
}

/* Remembers why a call of the file failed. */
static bool failed(gist_file *file) {
    file->why = errno;
    file->failed = true;
    return false;
}

int gist_file_open(gist_file *file, const char *path, enum gist_access access, uint64_t *size, bool *is_made) {
    struct stat it;
    *file = (gist_file){.fd = opened(path, access, is_made), .room = GIST_PIECE};
    int why = errno;
    pthread_mutex_init(&file->lock, NULL);
    pthread_cond_init(&file->ended, NULL);
    errno = why;
    if (file->fd < 0 || !locked(file->fd, access, &it)) {
        failed(file);
        *is_made = false;
        return GIST_DEVICE;
    }
    *size = (uint64_t)it.st_size;
    file->bytes = malloc(file->room);
    return file->bytes ? GIST_OK : GIST_MEMORY;
}

void gist_file_forget(gist_file *file) {
    if (file->fd >= 0) close(file->fd);
    free(file->bytes);
}

void gist_file_close(gist_file *file) {
    pthread_cond_destroy(&file->ended);
    pthread_mutex_destroy(&file->lock);
    gist_file_forget(file);
}

bool gist_file_extend(gist_file *file, uint64_t size) {
    int done;
    do done = ftruncate(file->fd, (off_t)size);
    while (done != 0 && errno == EINTR);
    return done == 0 || failed(file);
}

/* Reads `size` bytes from a place on. */
static bool read_all(int fd, uint8_t *bytes, size_t size, uint64_t at) {
    while (size > 0) {
        ssize_t got = pread(fd, bytes, size, (off_t)at);
        if (got < 0 && errno == EINTR) continue;
        if (got == 0) errno = EIO;
        if (got <= 0) return false;
        bytes += got;
        size -= (size_t)got;
        at += (uint64_t)got;
    }
    return true;
}

static bool write_all(int fd, const uint8_t *bytes, size_t size, uint64_t at) {
    while (size > 0) {
        ssize_t put = pwrite(fd, bytes, size, (off_t)at);
        if (put < 0 && errno == EINTR) continue;
        if (put == 0) errno = EIO;
        if (put <= 0) return false;
        bytes += put;
        size -= (size_t)put;
        at += (uint64_t)put;
    }
    return true;
}

gist_parameters gist_file_parameters(gist_file *file) {
    uint8_t at[8];
    if (!read_all(file->fd, at, sizeof at, GIST_SECTOR)) return (gist_parameters){0, 0, 0};
    return (gist_parameters){
        .pages = (uint32_t)at[0] << 24 | (uint32_t)at[1] << 16 | (uint32_t)at[2] << 8 | at[3],
        .fanout = (uint32_t)at[4] << 8 | at[5],
        .key_class = (uint32_t)at[6] << 8 | at[7],
    };
}

int gist_file_load(gist_file *file, gist_c_handle *handle, uint64_t size, uint64_t whole) {
    unsigned told = gx_c_reserve(handle, whole);
    uint64_t at = 0;
    while (told == GIST_OK && at < whole) {
        uint64_t left = (at < size ? size : whole) - at;
        size_t piece = left < GIST_PIECE ? (size_t)left : GIST_PIECE;
        if (at >= size) memset(file->bytes, 0, piece);
        else if (!read_all(file->fd, file->bytes, piece, at)) {
            failed(file);
            return GIST_DEVICE;
        }
        told = gx_c_append(handle, file->bytes, piece);
        at += piece;
    }
    return (int)(told == GIST_OK ? gx_c_device(handle) : told);
}

/* The room for the bytes of a call. */
static bool grow(gist_file *file, size_t size) {
    uint8_t *bytes = realloc(file->bytes, size);
    if (!bytes) return failed(file);
    file->bytes = bytes;
    file->room = size;
    return true;
}

/* Makes a sync, while no other is made. The caller has the lock, which is let go meanwhile. */
static void sync_once(gist_file *file) {
    uint64_t written = file->written;
    int done;
    file->syncing = true;
    pthread_mutex_unlock(&file->lock);
    do done = fdatasync(file->fd);
    while (done != 0 && errno == EINTR);
    if (done != 0) failed(file);
    pthread_mutex_lock(&file->lock);
    file->syncing = false;
    if (done == 0) file->synced = written;
    pthread_cond_broadcast(&file->ended);
}

bool gist_file_sync(gist_file *file) {
    int before;
    /* (a thread that was cancelled within a sync would leave others waiting for its end) */
    pthread_setcancelstate(PTHREAD_CANCEL_DISABLE, &before);
    pthread_mutex_lock(&file->lock);
    uint64_t written = file->written;
    while (file->synced < written && !file->failed) {
        if (file->syncing) pthread_cond_wait(&file->ended, &file->lock);
        else sync_once(file);
    }
    bool done = file->synced >= written;
    pthread_mutex_unlock(&file->lock);
    pthread_setcancelstate(before, NULL);
    return done;
}

bool gist_file_is_due(gist_file *file) {
    pthread_mutex_lock(&file->lock);
    uint64_t waiting = file->written - file->synced;
    pthread_mutex_unlock(&file->lock);
    return waiting >= MANY_WRITES || (waiting > 0 && file->log_waits);
}

/* Makes a call of the device. A sync that no write came behind is made already. */
static bool make(gist_file *file, const gist_c_call *call) {
    if (file->failed) return false;
    if (call->kind == GIST_C_SYNC) {
        file->log_waits = false;
        return gist_file_sync(file);
    }
    if (!write_all(file->fd, file->bytes, call->size, call->first * GIST_SECTOR)) return failed(file);
    if (call->first < GIST_PAGES_AT) file->log_waits = true;
    pthread_mutex_lock(&file->lock);
    file->written++;
    pthread_mutex_unlock(&file->lock);
    return true;
}

bool gist_file_follow(gist_file *file, gist_c_handle *handle) {
    for (;;) {
        gist_c_call call;
        unsigned told = gx_c_next(handle, &call, file->bytes, file->room);
        if (told != GIST_OK) {
            if (!grow(file, call.size)) return false;
            continue;
        }
        if (call.kind == GIST_C_NONE) return true;
        if (!make(file, &call)) return false;
    }
}
