/* An open index in process, and the calls without boxes; gist.h and gist_client.h say what each call does. */
#define _GNU_SOURCE
#include "index.h"

#include <errno.h>
#include <stdio.h>
#include <stdlib.h>
#include <string.h>
#include <sys/mman.h>
#include <unistd.h>

/* The number of the index that a call of this thread was last refused at with GIST_BUSY, and the session in the way. */
static _Thread_local struct {
    uint64_t index;
    unsigned session;
} last_busy;

/* A page that is zeros in a process that was forked off: it has this process's number, so that no call asks for it. */
static pthread_once_t made_page = PTHREAD_ONCE_INIT;
static _Atomic pid_t *page;

static void make_page(void) {
    size_t size = (size_t)sysconf(_SC_PAGESIZE);
    void *made = mmap(NULL, size, PROT_READ | PROT_WRITE, MAP_PRIVATE | MAP_ANONYMOUS, -1, 0);
    if (made == MAP_FAILED) return;
    if (madvise(made, size, MADV_WIPEONFORK) == 0) page = made;
    else munmap(made, size);
}

static pid_t this_process(void) {
    pthread_once(&made_page, make_page);
    pid_t own = page ? *page : 0;
    if (own != 0) return own;
    own = getpid();
    if (page) *page = own;
    return own;
}

int gist_index_invalid(void) {
    errno = EINVAL;
    return GIST_SYSTEM;
}

uint8_t gist_index_session(unsigned session) {
    return session > UINT8_MAX ? UINT8_MAX : (uint8_t)session;
}

int gist_index_say(int status, const char *path, int why, gist_end *end) {
    char room[128];
    if (!end) return status;
    *end = (gist_end){.status = status != GIST_OK};
    if (status == GIST_OK) return status;
    const char *told = gist_text(status);
    if (status == GIST_DEVICE && why == EWOULDBLOCK) told = "the file is in use, by another process or this one";
    else if (status == GIST_DEVICE && why) told = strerror_r(why, room, sizeof room);
    snprintf(end->sentence, sizeof end->sentence, "%s%s%s", path ? path : "", path ? ": " : "", told);
    return status;
}

gist_index *gist_index_new(void) {
    static _Atomic uint64_t opened;
    pthread_mutexattr_t checked;
    gist_index *it = calloc(1, sizeof *it);
    if (!it) return NULL;
    /* (a handler that comes within a call of its own thread is refused, and doesn't wait for ever) */
    pthread_mutexattr_init(&checked);
    pthread_mutexattr_settype(&checked, PTHREAD_MUTEX_ERRORCHECK);
    pthread_mutex_init(&it->lock, &checked);
    pthread_mutexattr_destroy(&checked);
    it->owner = this_process();
    it->number = ++opened;
    return it;
}

static void free_rest(gist_index *index) {
    if (index->handle.at) gx_c_free(&index->handle);
    for (int i = 0; i <= GIST_SESSIONS; i++) free(index->found[i].entries);
    free(index);
}

void gist_index_free(gist_index *index) {
    pthread_mutex_destroy(&index->lock);
    gist_file_close(&index->file);
    free_rest(index);
}

/* Frees what a process that was forked off has of an index. What another thread had in hand then is left as it is. */
static void forget(gist_index *index) {
    if (pthread_mutex_trylock(&index->lock) == 0) {
        gist_file_forget(&index->file);
        free_rest(index);
    } else close(index->file.fd);
}

int gist_index_enter(gist_index *index) {
    int before, told = GIST_SYSTEM;
    if (!index) return gist_index_invalid();
    if (index->owner != this_process()) {
        errno = ECHILD;
        return GIST_SYSTEM;
    }
    pthread_setcancelstate(PTHREAD_CANCEL_DISABLE, &before);
    int failed = pthread_mutex_lock(&index->lock);
    if (failed == 0) {
        index->cancels = before;
        if (!index->file.failed) return GIST_OK;
        pthread_mutex_unlock(&index->lock);
        told = GIST_FAILED;
    } else errno = failed;
    pthread_setcancelstate(before, NULL);
    return told;
}

void gist_index_release(gist_index *index) {
    int before = index->cancels;
    pthread_mutex_unlock(&index->lock);
    pthread_setcancelstate(before, NULL);
}

int gist_index_finish(gist_index *index, unsigned status) {
    if (!gist_file_follow(&index->file, &index->handle)) return GIST_DEVICE;
    if ((status & 255) == GIST_BUSY) {
        index->busy = status >> 8;
        last_busy.index = index->number;
        last_busy.session = status >> 8;
    }
    return (int)(status & 255);
}

int gist_index_leave(gist_index *index, unsigned status) {
    int told = gist_index_finish(index, status);
    gist_index_release(index);
    return told;
}

int gist_begin(gist_index *index, unsigned session) {
    int told = gist_index_enter(index);
    if (told != GIST_OK) return told;
    return gist_index_leave(index, gx_c_begin(&index->handle, gist_index_session(session)));
}

int gist_abort(gist_index *index, unsigned session) {
    int told = gist_index_enter(index);
    if (told != GIST_OK) return told;
    return gist_index_leave(index, gx_c_abort(&index->handle, gist_index_session(session)));
}

unsigned gist_dimensions(const gist_index *index) {
    return index ? index->dimensions : 0;
}

unsigned gist_busy(const gist_index *index) {
    if (!index) return 0;
    return last_busy.index == index->number ? last_busy.session : index->busy;
}

int gist_close(gist_index *index, gist_end *end) {
    int told = GIST_OK, why = 0;
    if (end) *end = (gist_end){0};
    if (!index) return GIST_OK;
    if (index->owner != this_process()) {
        forget(index);
        return GIST_OK;
    }
    told = gist_index_enter(index);
    if (told == GIST_SYSTEM) return told;
    if (told == GIST_OK) {
        told = gist_index_leave(index, gx_c_close(&index->handle));
        why = index->file.why;
    }
    gist_index_free(index);
    return gist_index_say(told, NULL, why, end);
}
