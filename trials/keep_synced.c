// Loaded in front of the C library, keeps beside the file named by FILE what a stop of the machine would leave of it at
// least: the file named by KEPT gets a write once a sync that began after it has ended. With LATE set a sync keeps only
// what the one before it was to keep, and answers as if it had kept all: so behaves a disk that lies.
#define _GNU_SOURCE
#include <fcntl.h>
#include <pthread.h>
#include <stdlib.h>
#include <string.h>
#include <sys/stat.h>
#include <sys/syscall.h>
#include <unistd.h>

typedef struct part {
    struct part *next;
    size_t length;
    off_t place;
    char bytes[];
} part;

// (`turn` is held while a part is put after the others, or all are taken; `order` through a whole sync, and before it)
static pthread_mutex_t turn = PTHREAD_MUTEX_INITIALIZER, order = PTHREAD_MUTEX_INITIALIZER;
static part *first, **last = &first, *late;

static int is_it(int descriptor)
{
    struct stat its, own;
    const char *file = getenv("FILE");
    return file && fstat(descriptor, &its) == 0 && stat(file, &own) == 0 && its.st_ino == own.st_ino &&
           its.st_dev == own.st_dev;
}

ssize_t pwrite(int descriptor, const void *bytes, size_t length, off_t place)
{
    if (!is_it(descriptor))
        return syscall(SYS_pwrite64, descriptor, bytes, length, place);
    part *it = malloc(sizeof *it + length);
    if (!it)
        abort();
    pthread_mutex_lock(&turn);
    ssize_t done = syscall(SYS_pwrite64, descriptor, bytes, length, place);
    *it = (part){.length = done > 0 ? (size_t)done : 0, .place = place};
    memcpy(it->bytes, bytes, it->length);
    *last = it;
    last = &it->next;
    pthread_mutex_unlock(&turn);
    return done;
}

ssize_t pwrite64(int descriptor, const void *bytes, size_t length, off_t place)
{
    return pwrite(descriptor, bytes, length, place);
}

static void keep(int descriptor, part *all)
{
    struct stat its;
    int kept = open(getenv("KEPT"), O_WRONLY | O_CREAT | O_CLOEXEC, 0600);
    if (kept < 0 || fstat(descriptor, &its) != 0 || ftruncate(kept, its.st_size) != 0)
        abort();
    while (all) {
        part *it = all;
        if (syscall(SYS_pwrite64, kept, it->bytes, it->length, it->place) != (ssize_t)it->length)
            abort();
        all = it->next;
        free(it);
    }
    close(kept);
}

static int settle(int descriptor, long call)
{
    if (!is_it(descriptor))
        return (int)syscall(call, descriptor);
    pthread_mutex_lock(&order);
    pthread_mutex_lock(&turn);
    part *all = first;
    first = NULL;
    last = &first;
    pthread_mutex_unlock(&turn);
    int failed = (int)syscall(call, descriptor);
    if (failed)
        abort();
    if (getenv("LATE")) {
        part *before = late;
        late = all;
        all = before;
    }
    keep(descriptor, all);
    pthread_mutex_unlock(&order);
    return failed;
}

int fsync(int descriptor)
{
    return settle(descriptor, SYS_fsync);
}

int fdatasync(int descriptor)
{
    return settle(descriptor, SYS_fdatasync);
}
