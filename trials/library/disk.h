/* What a stop of the machine would leave of a file that the library writes: its calls go through here (the linker wraps
   pwrite and fdatasync), and an image of the file can be made at any moment, in which each sector that was written and
   not synced since is an old or a new one. */
#ifndef DISK_H
#define DISK_H

#include <stdbool.h>
#include <stddef.h>
#include <stdint.h>

/* From now on the file at this path is looked at. What it holds is synced. */
void disk_watch(const char *path);

/* The calls that were made of it since then. */
typedef struct disk_calls {
    uint64_t writes, syncs;
} disk_calls;

disk_calls disk_counted(void);

/* How its calls go wrong. */
typedef struct disk_faults {
    uint64_t failing;  /* the call of this number, from 1 on, fails and isn't made; 0: none */
    bool is_late;      /* a sync makes durable only what the one before it was to: so behaves a disk that lies */
    bool is_odd;       /* writes are short or interrupted at random */
    unsigned sync_time; /* microseconds of each sync, at most */
} disk_faults;

void disk_set(disk_faults faults);

/* Called in each write and sync, while no other call is made, where it isn't NULL. */
void disk_look(void (*look)(void));

/* While this is held no call of the file is made, and no image of it changes. */
void disk_hold(void);
void disk_release(void);

/* Writes an image into a new file; of sectors that weren't synced so many of a hundred are new, at random. */
void disk_image(const char *path, unsigned percent, unsigned *seed);

/* Ends the process where something doesn't hold that a trial needs. */
void must(bool holds, const char *what);
#define MUST(what) must(what, #what)

#endif
