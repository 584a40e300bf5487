/* gist in process: the crash-safe spatial index in a file, opened by this process, in C11 for Linux.

   The calls, their statuses and what stays after each are those of gist_client.h; a program that uses that client
   includes this header in its place, and links with `-lgist`. docs/LIBRARY.md has the whole picture. What differs:

   - `program` isn't used, and no process is started. A gist_end has status 1 if a call failed, and says why.
   - An index holds the whole file in memory, and `frames` pages besides; gist_verify and gist_stat hold it twice.
   - What a search found, and what gist_search_many did, stays until its session's next search, or until the index is
     closed.
   - GIST_ENDED and GIST_PROTOCOL aren't returned: a number of pages, entries or frames that is out of its range is
     GIST_BAD_PARAMETER, and memory that is refused GIST_MEMORY. gist_dump, gist_migrate and gist_pid aren't there.

   Threads:

   - The calls of an index may be made by several threads at once, but in one session by one thread at a time. Each call is
     made whole, one after another; only a commit lets other calls in while it waits for a sync, and commits that are
     made at once share their syncs.
   - gist_busy is about the last GIST_BUSY of the calling thread, or of any where that had none.
   - gist_close ends the index for all threads: a call that another one makes then, or is making, is an error.
   - No call is a cancellation point, but for those that open, format, verify and count.

   Caveats:

   - The file is locked (flock) while it is open: one process has it, and one handle within a process. Open a file once,
     and share the index.
   - After fork, a child can't use its parent's index: each call returns GIST_SYSTEM with errno ECHILD, and gist_close
     frees what the child has and writes nothing. The child shares the parent's lock until it closes the index or execs.
   - Signals: a handler interrupts no call. None may be called within one (where its thread holds the index, the call
     returns GIST_SYSTEM with errno EDEADLK), and none may be left by longjmp.
   - A process that ends, or is killed, leaves the file as a crash does: what was answered as committed is in it.
   - gist_close gives up open transactions. An index that isn't closed is undone by the next opening.
   - After a call of the file failed, each call that needed it returns GIST_DEVICE, and each later one GIST_FAILED,
     gist_close too: close the index and open it again. A commit that was answered by GIST_DEVICE is there whole or not at
     all.
   - No standard stream is written or read, and no file gets the number of one.
   - A thread needs 256 KB of stack for the calls. */
#ifndef GIST_H
#define GIST_H

#define GIST_EMBEDDED 1
#include "gist_client.h"

#endif
