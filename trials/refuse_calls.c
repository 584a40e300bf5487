// Loaded in front of the C library, has one call fail: each one of the name in CALL, as `pwrite`, with the error of the number in ERROR.
// At the end, also by _exit, which runs no destructor, the file named by COUNTED, if there is one, gets how many reads were made at a
// place, and with which access the last file was opened: 0 to read alone, 2 to read and write.
#define _GNU_SOURCE
#include <dlfcn.h>
#include <errno.h>
#include <fcntl.h>
#include <stdarg.h>
#include <stdio.h>
#include <stdlib.h>
#include <string.h>
#include <sys/syscall.h>
#include <unistd.h>

static long reads, access_of_last;

__attribute__((destructor)) static void end(void)
{
    const char *path = getenv("COUNTED");
    long counted = reads, access = access_of_last;
    FILE *file = path ? fopen(path, "w") : NULL;
    if (file) {
        fprintf(file, "%ld %ld\n", counted, access);
        fclose(file);
    }
}

void _exit(int status)
{
    end();
    syscall(SYS_exit_group, status);
    __builtin_unreachable();
}

static int refuses(const char *name)
{
    const char *call = getenv("CALL");
    if (!call || strcmp(call, name) != 0)
        return 0;
    errno = atoi(getenv("ERROR"));
    return 1;
}

#define NEXT(type, name) ((type)dlsym(RTLD_NEXT, name))

int open(const char *path, int flags, ...)
{
    va_list more;
    va_start(more, flags);
    mode_t mode = flags & O_CREAT ? va_arg(more, mode_t) : 0;
    va_end(more);
    access_of_last = flags & O_ACCMODE;
    return refuses("open") ? -1 : NEXT(int (*)(const char *, int, ...), "open")(path, flags, mode);
}

int ftruncate(int file, off_t size)
{
    return refuses("ftruncate") ? -1 : NEXT(int (*)(int, off_t), "ftruncate")(file, size);
}

int fsync(int file) { return refuses("fsync") ? -1 : NEXT(int (*)(int), "fsync")(file); }

int fdatasync(int file) { return refuses("fdatasync") ? -1 : NEXT(int (*)(int), "fdatasync")(file); }

ssize_t pread(int file, void *bytes, size_t size, off_t at)
{
    reads++;
    return refuses("pread") ? -1 : NEXT(ssize_t (*)(int, void *, size_t, off_t), "pread")(file, bytes, size, at);
}

ssize_t pwrite(int file, const void *bytes, size_t size, off_t at)
{
    return refuses("pwrite") ? -1 : NEXT(ssize_t (*)(int, const void *, size_t, off_t), "pwrite")(file, bytes, size, at);
}
