/* A client of gist, the crash-safe spatial index in a file, in C11 for Linux.

   An open index is a separate process, `gist run`, which is asked over a pair of sockets and a pipe. A fault of
   this process leaves the index alone, and a commit that was answered is in the file. docs/CLIENTS.md has the whole
   picture, docs/SCRIPT.md what each call means. Each call returns one of the statuses below.

   Caveats:

   - Threads: an index is used by one thread at a time; threads that share one have to put a lock around its calls.
     Different indexes share nothing, and there is no global state.

   - Fork: an index belongs to the process that opened it. In a child that was forked off, each call answers
     GIST_SYSTEM with errno ECHILD, and gist_close frees what the child has and leaves its parent's index alone. A
     child that neither closes the index nor execs holds the program's input: if the parent is killed, the program
     lives on, and keeps the file in use, until the child has ended.

   - Signals: a call that is interrupted by a handler goes on until it is answered, with SA_RESTART and without. None
     may be called within a handler, and none may be left by longjmp. No call raises SIGPIPE or changes what the
     process does with a signal. The program is in a separate session, so a Ctrl-C doesn't reach it.

   - Time: nothing bounds how long a call waits for the program. kill(pid, SIGKILL) with what gist_pid said, from a
     handler or another thread, ends such a wait: the call answers GIST_ENDED.

   - SIGCHLD: if the process ignores it, or something else of it waits for any child, the system doesn't report
     how the program ended. Then gist_end has status 1 if the program wrote a sentence and 0 if it didn't, and
     gist_close takes an end without a sentence for a good one. What was answered as committed is in the file all the
     same.

   - Descriptors: each is closed on exec. The program gets none of this process's, if the C library is glibc 2.34
     or later; else those that aren't closed on exec.

   - The program is started with GIST_NO_BUILD in its environment, so that the repository's launcher, if it isn't
     built, says how to build it and ends with status 3. */
#ifndef GIST_CLIENT_H
#define GIST_CLIENT_H

#include <stddef.h>
#include <stdint.h>
#include <stdio.h>

#ifdef __cplusplus
extern "C" {
#endif

/* (a library that hides its other names shows these) */
#pragma GCC visibility push(default)

/* The version of this client: as text, and as a number, 10,000 * major + 100 * minor + patch. gist_version says that
   of the library. */
#define GIST_VERSION "0.1.0"
#define GIST_VERSION_NUMBER 100
const char *gist_version(void);

/* How a call ended. */
enum gist_status {
    GIST_OK = 0, /* all was done */
    /* 1 to 20: the index refused the call, which changed nothing. Its transaction stays open. */
    GIST_NO_TRANSACTION = 1, /* the session has no transaction */
    GIST_IN_TRANSACTION = 2, /* the session has one already */
    GIST_PRESENT = 3,        /* the transaction sees the entry that was to be inserted */
    GIST_ABSENT = 4,         /* the transaction doesn't see the entry that was to be deleted */
    GIST_BUSY = 5,    /* another session (gist_busy) wrote or searched what this call is about; the index never waits */
    GIST_BAD_BOX = 6,         /* x2 < x1 or y2 < y1, or in space z2 < z1 */
    GIST_PAGES_FULL = 7,      /* a node has to be split and the index has no page left */
    GIST_CLAIMS_FULL = 8,     /* open transactions have written 512 entries in all */
    GIST_PREDICATES_FULL = 9, /* the transaction has made 16 different searches */
    GIST_MEMORY = 10,         /* the system refused memory; the call may be repeated */
    GIST_DEVICE = 11,         /* the file isn't there or is in use, or a call of it failed */
    GIST_FAILED = 12,         /* an earlier call of the file failed; open the index again */
    GIST_DAMAGED = 13,        /* the file holds what no index wrote; the sentence says where */
    GIST_NOT_FORMATTED = 14,  /* the file holds no index */
    GIST_BAD_SESSION = 15,    /* the session isn't 1 to 8 */
    GIST_CALL_OPEN = 16,      /* never so here */
    GIST_TOO_SMALL = 17,      /* the file is shorter than its index, or than any */
    GIST_BAD_PARAMETER = 18,  /* the index is of other keys than the call, or of none that has boxes; or its numbers are
                                 wrong */
    GIST_NO_CALL = 19,        /* never so here */
    GIST_HISTORY_FULL = 20,   /* the numbers of commits or transactions are used up */
    GIST_OLD_VERSION = 21,    /* the file holds an index of an older version of the format */
    /* The client's own. After GIST_ENDED and GIST_PROTOCOL all calls of the index but gist_close answer GIST_ENDED. */
    GIST_ENDED = 32,    /* the program has ended, and with it all that was open; what was answered as committed stays */
    GIST_PROTOCOL = 33, /* the program answered what no gist of this kind answers; it was ended */
    GIST_SYSTEM = 34,   /* errno says why: EINVAL, an argument that is NULL or no value of its enum; ECHILD, another
                           process opened the index; else a call of the system failed. The index is unchanged */
};

/* How the program ended: its status, or minus the signal that killed it; and why, as a text: what it wrote to standard
   error, or what can be said without. Empty if it ended well. */
typedef struct gist_end {
    int status;
    char sentence[1024];
} gist_end;

/* A box with its edges: x1 <= x2 and y1 <= y2. */
typedef struct gist_box {
    int32_t x1, y1, x2, y2;
} gist_box;

/* A box of space with its faces: x1 <= x2, y1 <= y2 and z1 <= z2. */
typedef struct gist_box3 {
    int32_t x1, y1, z1, x2, y2, z2;
} gist_box3;

/* A row with its box. */
typedef struct gist_entry {
    uint64_t row;
    gist_box box;
} gist_entry;

typedef struct gist_entry3 {
    uint64_t row;
    gist_box3 box;
} gist_entry3;

enum gist_query {
    GIST_OVERLAP, /* the entries whose box shares a point with this one */
    GIST_WITHIN,  /* those whose box lies in this one */
    GIST_EQUAL,   /* those with this box */
    GIST_COVERS,  /* those whose box covers this one */
};

/* An open index. */
typedef struct gist_index gist_index;

/* What a status means in a word or two, as the program says it; and in a sentence that says what to do. Never NULL. */
const char *gist_text(int status);
const char *gist_strerror(int status);

/* What an index has: its last commit, its entries, and how many pages are in use. */
typedef struct gist_counts {
    uint64_t commits, entries;
    uint32_t used;
} gist_counts;

/* And what it was formatted with: how many pages it may use, how many entries a node has at most, and the class of its
   keys (1: boxes of the plane, 3: boxes of space). It is full if counts.used is pages and a node has to be split. */
typedef struct gist_stats {
    gist_counts counts;
    uint32_t pages, fanout, key_class;
} gist_stats;

#ifndef GIST_EMBEDDED
/* What a migration brought into the new file: the last commit, and how many pages are in use. */
typedef struct gist_migrated {
    uint64_t commits;
    uint32_t used;
} gist_migrated;
#endif

/* In the calls of files `program` is the path of gist; if it is NULL, the environment variable GIST has it. PATH
   isn't searched, since other programs have that name. They answer GIST_SYSTEM if it can't be started, the refusal
   with which it ends, or GIST_ENDED if it ends badly without one: `end`, if it isn't NULL, says how (status 2:
   a number out of its range; 3: a launcher that isn't built). */

/* For gist_format: what the file holds is lost; the boxes are those of space, and not of the plane. */
enum { GIST_OVERWRITE = 1, GIST_SPACE = 2 };

/* Lays a new index down in the file `path`, which is made if it isn't there, for `pages` pages of 4,096 bytes (8
   to 65536) of `fanout` entries at most (4 to 100). `flags` is 0, or GIST_OVERWRITE, GIST_SPACE or both, put together
   by `|`. Without GIST_OVERWRITE the file has to be new or empty, else it is left alone, and the answer is GIST_SYSTEM
   with errno EEXIST. GIST_DEVICE: the file can't be made or written, or is in use. */
int gist_format(const char *program, const char *path, unsigned pages, unsigned fanout, unsigned flags, gist_end *end);

#ifndef GIST_EMBEDDED
/* Brings the index of the format's first version that the file `old` holds into the file `path`, which is made if it
   isn't there. `old` is only read: keep it until the new index is verified. `flags` is 0 or GIST_OVERWRITE, as for
   gist_format; with GIST_OK `migrated`, if it isn't NULL, says what the new file has. Neither file may be open. If it
   fails, a file that was made for it is removed. GIST_NOT_FORMATTED: `old` holds no such index; and the refusals of
   gist_open. */
int gist_migrate(const char *program, const char *old, const char *path, unsigned flags, gist_migrated *migrated,
                 gist_end *end);
#endif

/* Opens the index in the file `path`, with `frames` pages of 4,096 bytes in memory (16 to 4096; 0: as many as it has
   pages, at most 4096); what a crash cut off is undone first. With GIST_OK *index is the open index, which gist_close
   has to close; with any other status it is NULL, and nothing is left open. GIST_DEVICE: the file isn't there, is in
   use or can't be read or written; GIST_OLD_VERSION, GIST_NOT_FORMATTED, GIST_TOO_SMALL, GIST_BAD_PARAMETER,
   GIST_DAMAGED: what it holds; GIST_MEMORY. */
int gist_open(gist_index **index, const char *program, const char *path, unsigned frames, gist_end *end);

#ifndef GIST_EMBEDDED
/* Prints the tree of the index in the file `path` to a stream, as docs/SCRIPT.md has it. The index must not be open.
   The refusals of gist_open, after part of the tree maybe; GIST_SYSTEM also if the stream takes no more. */
int gist_dump(const char *program, const char *path, FILE *to, gist_end *end);
#endif

/* Tests the index in the file `path` in a copy in memory, and doesn't change the file. GIST_OK: it is sound, and
   `counts`, if it isn't NULL, has what it holds. The index must not be open. The refusals of gist_open. */
int gist_verify(const char *program, const char *path, gist_counts *counts, gist_end *end);

/* The same, and returns also what the index was formatted with. */
int gist_stat(const char *program, const char *path, gist_stats *stats, gist_end *end);

/* Gives up what is open, waits until the program has ended, and frees the index, whatever the status: GIST_OK if the
   program ended well, else why it ended, be it now or before; `end` is as above. NULL is closed already. In a process
   that was forked off it only frees, and answers GIST_OK. */
int gist_close(gist_index *index, gist_end *end);

/* The dimensions of its boxes, which the file says: 2, in the plane, or 3, in space; 0 of NULL. */
unsigned gist_dimensions(const gist_index *index);

/* Each call from here on is made in a session, 1 to 8, and if it isn't answered with GIST_OK nothing has changed in
   its transaction. Beside what is said with it, it may answer GIST_BAD_SESSION, GIST_MEMORY, GIST_DEVICE, GIST_FAILED,
   GIST_ENDED, GIST_PROTOCOL or GIST_SYSTEM; and but for gist_begin GIST_NO_TRANSACTION. */

/* Begins a transaction. GIST_IN_TRANSACTION: the session has one. GIST_HISTORY_FULL. */
int gist_begin(gist_index *index, unsigned session);

/* Ends the transaction and keeps its changes: with GIST_OK they are in the file and outlive a crash. `number`, if it
   isn't NULL, gets the commit's number. After GIST_DEVICE, GIST_ENDED or GIST_PROTOCOL they are there whole or not at
   all, which the index shows once it is opened again. */
int gist_commit(gist_index *index, unsigned session, uint64_t *number);

/* Ends the transaction and drops its changes. It costs no sync: so end one that has only searched. */
int gist_abort(gist_index *index, unsigned session);

/* Of the calls from here on, those whose names end in 3 have boxes of space, and the others boxes of the plane. One of
   the wrong kind for its index is answered with GIST_BAD_PARAMETER, and asks nothing. */

/* Adds an entry. GIST_PRESENT: the index has it. GIST_BUSY; GIST_BAD_BOX; GIST_PAGES_FULL; GIST_CLAIMS_FULL. */
int gist_insert(gist_index *index, unsigned session, uint64_t row, gist_box box);
int gist_insert3(gist_index *index, unsigned session, uint64_t row, gist_box3 box);

/* Takes an entry away. GIST_ABSENT: it isn't there, with just this box. GIST_BUSY; GIST_BAD_BOX; GIST_CLAIMS_FULL. */
int gist_delete(gist_index *index, unsigned session, uint64_t row, gist_box box);
int gist_delete3(gist_index *index, unsigned session, uint64_t row, gist_box3 box);

/* Adds or takes away `count` entries, of which up to 100 are written before their answers are read; that takes a
   fraction of the time of a call each. The first refusal is the status, and `done`, if it isn't NULL, gets its
   entry's place: so many before it were done. Some after it may have been done as well: abort, or look. */
int gist_insert_many(gist_index *index, unsigned session, const gist_entry *entries, size_t count, size_t *done);
int gist_delete_many(gist_index *index, unsigned session, const gist_entry *entries, size_t count, size_t *done);
int gist_insert_many3(gist_index *index, unsigned session, const gist_entry3 *entries, size_t count, size_t *done);
int gist_delete_many3(gist_index *index, unsigned session, const gist_entry3 *entries, size_t count, size_t *done);

/* Finds entries. With GIST_OK *found has `*count` of them in order by row and then box; it is the index's, and stays
   until its next search or its close. GIST_BUSY; GIST_BAD_BOX; GIST_PREDICATES_FULL; GIST_SYSTEM: no memory here. */
int gist_search(gist_index *index, unsigned session, enum gist_query query, gist_box box, const gist_entry **found,
                size_t *count);
int gist_search3(gist_index *index, unsigned session, enum gist_query query, gist_box3 box, const gist_entry3 **found,
                 size_t *count);

/* What one of several searches found. */
typedef struct gist_hits {
    const gist_entry *found;
    size_t count;
} gist_hits;

typedef struct gist_hits3 {
    const gist_entry3 *found;
    size_t count;
} gist_hits3;

/* Makes `count` searches of one kind, of a box each; up to 16 are written before their answers are read, which saves time
   if they find little. hits[i] gets what boxes[i] finds, as gist_search does. The first refusal is the status, and
   `done`, if it isn't NULL, gets its search's place: only so many hits are set. */
int gist_search_many(gist_index *index, unsigned session, enum gist_query query, const gist_box *boxes, size_t count,
                     gist_hits *hits, size_t *done);
int gist_search_many3(gist_index *index, unsigned session, enum gist_query query, const gist_box3 *boxes, size_t count,
                      gist_hits3 *hits, size_t *done);

/* The session that the last GIST_BUSY named; 0 before any, and of NULL. */
unsigned gist_busy(const gist_index *index);

#ifndef GIST_EMBEDDED
/* The number of the program's process; 0 of NULL. */
long gist_pid(const gist_index *index);
#endif

#pragma GCC visibility pop

#ifdef __cplusplus
}
#endif

#endif
