/* The syncs of the library's file, one after another as a trial tells them to go on: a write that comes while a sync is
   made isn't synced by it; who needs no more than that sync waits for it; and once one has failed no call follows. The
   device is this program's: a handle is a list of its calls. The last line is `N passed, M failed`. */
#define _GNU_SOURCE
#include "../../c/embedded/file.h"

#include <errno.h>
#include <semaphore.h>
#include <stdatomic.h>
#include <stdlib.h>
#include <string.h>
#include <unistd.h>

/* Calls of the device: letters, w for a write of the log, p for one of a page, s for a sync. */
typedef struct device {
    const char *calls;
} device;

static int passed, failed;
static atomic_int writes, syncs;
static atomic_bool waits, fails;
static sem_t begun, go_on;

static void check(bool holds, const char *what, int line) {
    if (holds) passed++;
    else failed++;
    if (!holds) printf("FAILED line %d: %s\n", line, what);
}
#define HOLDS(what) check(what, #what, __LINE__)

uint16_t gx_c_next(gist_c_handle *handle, gist_c_call *call, uint8_t *bytes, size_t size) {
    device *its = (device *)(void *)handle->at;
    (void)bytes, (void)size;
    *call = (gist_c_call){GIST_C_NONE, 0, 0};
    if (*its->calls == 0) return 0;
    uint64_t first = *its->calls == 'p' ? GIST_PAGES_AT : 8;
    *call = *its->calls == 's' ? (gist_c_call){GIST_C_SYNC, 0, 0} : (gist_c_call){GIST_C_WRITE, first, GIST_SECTOR};
    its->calls++;
    return 0;
}

uint16_t gx_c_reserve(gist_c_handle *handle, size_t size) {
    (void)handle, (void)size;
    return 0;
}

uint16_t gx_c_append(gist_c_handle *handle, const uint8_t *bytes, size_t size) {
    (void)handle, (void)bytes, (void)size;
    return 0;
}

uint16_t gx_c_device(gist_c_handle *handle) {
    (void)handle;
    return 0;
}

/* The linker puts these in the places of the system's. */
ssize_t __wrap_pwrite(int fd, const void *bytes, size_t length, off_t place) {
    (void)fd, (void)bytes, (void)place;
    writes++;
    return (ssize_t)length;
}

int __wrap_fdatasync(int fd) {
    (void)fd;
    syncs++;
    if (waits) {
        sem_post(&begun);
        while (sem_wait(&go_on) != 0) continue;
    }
    errno = EIO;
    return fails ? -1 : 0;
}

static gist_file file;

/* Makes these calls of the file. */
static bool follow(const char *calls) {
    device its = {calls};
    return gist_file_follow(&file, &(gist_c_handle){(uint8_t *)&its});
}

static void *sync_ahead(void *told) {
    *(int *)told = gist_file_sync(&file);
    return NULL;
}

static void *sync_of_device(void *told) {
    *(int *)told = follow("s");
    return NULL;
}

static void fresh(void) {
    uint64_t size;
    bool is_made;
    waits = fails = false;
    HOLDS(gist_file_open(&file, "/proc/self/exe", GIST_READ, &size, &is_made) == GIST_OK && !is_made);
    writes = syncs = 0;
}

static void alone(void) {
    fresh();
    HOLDS(follow("s") && gist_file_sync(&file) && syncs == 0);
    HOLDS(follow("wws") && writes == 2 && syncs == 1 && follow("ss") && gist_file_sync(&file) && syncs == 1);
    HOLDS(follow("w") && gist_file_sync(&file) && syncs == 2 && follow("s") && syncs == 2);
    gist_file_close(&file);
}

static void due(void) {
    fresh();
    HOLDS(!gist_file_is_due(&file) && follow("p") && !gist_file_is_due(&file));
    HOLDS(follow("w") && gist_file_is_due(&file) && gist_file_sync(&file) && !gist_file_is_due(&file));
    HOLDS(follow("p") && gist_file_is_due(&file) && follow("s") && !gist_file_is_due(&file));
    for (int i = 0; i < 63; i++) HOLDS(follow("p") && !gist_file_is_due(&file));
    HOLDS(follow("p") && gist_file_is_due(&file));
    gist_file_close(&file);
}

/* A thread is in a sync, then these calls are made, and then another thread has the device sync. */
static void while_synced(const char *calls, bool is_failing, int wanted) {
    pthread_t one, other;
    int first = -1, second = -1;
    fresh();
    HOLDS(follow("w"));
    waits = true;
    HOLDS(pthread_create(&one, NULL, sync_ahead, &first) == 0 && sem_wait(&begun) == 0);
    HOLDS(follow(calls) && pthread_create(&other, NULL, sync_of_device, &second) == 0);
    usleep(30000);
    HOLDS(syncs == 1 && second == -1);
    waits = false;
    fails = is_failing;
    HOLDS(sem_post(&go_on) == 0 && pthread_join(one, NULL) == 0 && pthread_join(other, NULL) == 0);
    HOLDS(first == !is_failing && second == !is_failing && syncs == wanted);
    int before = writes;
    fails = false;
    HOLDS(follow("ws") == !is_failing && gist_file_sync(&file) == !is_failing);
    HOLDS(writes == before + !is_failing && syncs == wanted + !is_failing);
    gist_file_close(&file);
}

int main(void) {
    HOLDS(sem_init(&begun, 0, 0) == 0 && sem_init(&go_on, 0, 0) == 0);
    alone();
    due();
    while_synced("", false, 1);
    while_synced("p", false, 2);
    while_synced("ww", false, 2);
    while_synced("", true, 1);
    while_synced("w", true, 1);
    printf("%d passed, %d failed\n", passed, failed);
    return failed != 0;
}
