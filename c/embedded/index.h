/* An open index in process, for the library's own files. */
#ifndef GIST_EMBEDDED_INDEX_H
#define GIST_EMBEDDED_INDEX_H

#include "file.h"
#include "gist_c.h"

#include <pthread.h>
#include <stdatomic.h>
#include <stdbool.h>
#include <sys/types.h>

enum { GIST_SESSIONS = 8 };

/* What a session's last search found. */
typedef struct gist_room {
    void *entries;
    size_t bytes;
} gist_room;

struct gist_index {
    gist_c_handle handle;
    gist_file file;
    pthread_mutex_t lock; /* held through a call; and through a commit, but for its syncs */
    int cancels;          /* how the holder's thread may be cancelled once it lets go */
    pid_t owner;          /* the process that opened it */
    uint64_t number;      /* no other index of the process has it */
    atomic_uint busy;     /* the session that was in the way of the last call that one was in the way of */
    unsigned dimensions;
    gist_room found[GIST_SESSIONS + 1]; /* of each session; the first is of numbers that no session has */
};

/* An index of this process, with nothing open; NULL: there is no memory for it. gist_file_open has to follow. */
gist_index *gist_index_new(void);

/* Frees what the index has, and closes its file. */
void gist_index_free(gist_index *index);

/* Takes the index for a call, in this process. GIST_OK: it is the caller's until gist_index_release. */
int gist_index_enter(gist_index *index);
void gist_index_release(gist_index *index);

/* Makes the calls that the device made, of the file. Returns the status of a call that the proved code answered with
   `status`: that one, or GIST_DEVICE. */
int gist_index_finish(gist_index *index, unsigned status);

/* The same, and lets the index go. */
int gist_index_leave(gist_index *index, unsigned status);

/* A session as the proved code takes it, which refuses a number that no session has. */
uint8_t gist_index_session(unsigned session);

/* Refuses a call whose arguments make no sense: GIST_SYSTEM, with EINVAL. */
int gist_index_invalid(void);

/* Says how a call ended: `path` is the file's, or NULL, and `why` an errno, where a call of the file failed. Returns the
   status. */
int gist_index_say(int status, const char *path, int why, gist_end *end);

#endif
