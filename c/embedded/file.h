/* A file that has the sectors of a device. */
#ifndef GIST_EMBEDDED_FILE_H
#define GIST_EMBEDDED_FILE_H

#include "gist_c.h"

#include <pthread.h>
#include <stdatomic.h>
#include <stdbool.h>
#include <stddef.h>
#include <stdint.h>

/* The bytes of a sector, how many bytes are read at once, and the first sector behind the log: pages begin there. */
enum { GIST_SECTOR = 512, GIST_PIECE = 1 << 20, GIST_PAGES_AT = 16648 };

typedef struct gist_file {
    int fd;
    atomic_bool failed; /* a write or sync failed: the file is to have no more */
    atomic_int why;     /* the errno of the call that failed */
    /* What follows is of the thread that holds the index. */
    bool log_waits; /* the log was written behind the device's last sync */
    uint8_t *bytes; /* room for the bytes of a call */
    size_t room;
    /* What follows is of the thread that holds this lock. */
    pthread_mutex_t lock;
    pthread_cond_t ended; /* a sync has ended */
    bool syncing;         /* a thread is in a sync, without the lock */
    uint64_t written;     /* how many writes have returned */
    uint64_t synced;      /* of how many a sync that began behind them has returned without a fault */
} gist_file;

/* What a file is opened for: those that only read share its lock. */
enum gist_access { GIST_READ, GIST_WRITE, GIST_CREATE };

/* Opens a file and locks it. The standard streams' numbers are left alone. GIST_OK, GIST_MEMORY, or GIST_DEVICE.
   `size` is its length in bytes; `is_made` says whether it was made, and is this process's alone. Whatever the status,
   gist_file_close has to follow. */
int gist_file_open(gist_file *file, const char *path, enum gist_access access, uint64_t *size, bool *is_made);

/* Makes the file as long as `size`. */
bool gist_file_extend(gist_file *file, uint64_t size);

/* Reads the first `size` bytes into the handle's device, a piece at a time, and zeros from there to `whole`. */
int gist_file_load(gist_file *file, gist_c_handle *handle, uint64_t size, uint64_t whole);

/* Makes the calls that the handle's device made and the file hasn't had, in order. false: one failed. */
bool gist_file_follow(gist_file *file, gist_c_handle *handle);

/* Makes all writes durable that have returned by now. Syncs are made one at a time, by whatever thread comes first:
   each failure is returned by the system once, and is then true of every write since the sync before. Any thread may
   call this, whether it holds the index or not. false: a sync failed. */
bool gist_file_sync(gist_file *file);

/* Whether the device's next step may sync writes that aren't durable: so a thread that is about to make that step makes
   the sync first, while others work. */
bool gist_file_is_due(gist_file *file);

/* What the second sector of a file says: how many pages it may have, how many entries a page, and the class of its
   keys; zeros where it can't be read. */
typedef struct gist_parameters {
    uint32_t pages, fanout, key_class;
} gist_parameters;

gist_parameters gist_file_parameters(gist_file *file);

/* Closes the file, and frees what it has. No thread may use it. */
void gist_file_close(gist_file *file);

/* The same in a process that was forked off, where threads that there are not may seem to have its lock. */
void gist_file_forget(gist_file *file);

#endif
