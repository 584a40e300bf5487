// Loaded in front of the C library, notes in the file named by CALLS which calls are made of the file named by FILE and
// of standard output, a line each in their order: write, extend, sync, reply, and committed for a reply that says so; and
// early for a sync by a descriptor that is open for reading alone. The sync whose number, from 1 on, is in REFUSE fails
// and isn't made, which is noted as refused; with EARLY set early syncs alone are counted. With SWALLOW set no
// sync is made and each is answered as a success, which isn't noted: so behaves a program that has lost its syncs.
#define _GNU_SOURCE
#include <errno.h>
#include <fcntl.h>
#include <stdlib.h>
#include <string.h>
#include <sys/stat.h>
#include <sys/syscall.h>
#include <sys/uio.h>
#include <unistd.h>

static void note(const char *line)
{
    int notes = open(getenv("CALLS"), O_WRONLY | O_CREAT | O_APPEND | O_CLOEXEC, 0600);
    if (notes < 0 || syscall(SYS_write, notes, line, strlen(line)) < 0)
        abort();
    close(notes);
}

// Notes a call if it is made of the file; returns whether it is.
static int noted(int descriptor, const char *line)
{
    struct stat its, own;
    if (fstat(descriptor, &its) != 0 || stat(getenv("FILE"), &own) != 0)
        return 0;
    if (its.st_ino != own.st_ino || its.st_dev != own.st_dev)
        return 0;
    if (line)
        note(line);
    return 1;
}

ssize_t write(int descriptor, const void *bytes, size_t length)
{
    if (descriptor == STDOUT_FILENO)
        note(memmem(bytes, length, "committed", 9) ? "committed\n" : "reply\n");
    else
        noted(descriptor, "write\n");
    return syscall(SYS_write, descriptor, bytes, length);
}

ssize_t writev(int descriptor, const struct iovec *parts, int count)
{
    noted(descriptor, "write\n");
    return syscall(SYS_writev, descriptor, parts, count);
}

ssize_t pwrite(int descriptor, const void *bytes, size_t length, off_t place)
{
    noted(descriptor, "write\n");
    return syscall(SYS_pwrite64, descriptor, bytes, length, place);
}

ssize_t pwrite64(int descriptor, const void *bytes, size_t length, off_t place)
{
    return pwrite(descriptor, bytes, length, place);
}

int ftruncate(int descriptor, off_t length)
{
    noted(descriptor, "extend\n");
    return (int)syscall(SYS_ftruncate, descriptor, length);
}

int ftruncate64(int descriptor, off_t length)
{
    return ftruncate(descriptor, length);
}

static int settle(int descriptor, long call)
{
    static long count;
    const char *refused = getenv("REFUSE");
    int early = (fcntl(descriptor, F_GETFL) & O_ACCMODE) == O_RDONLY;
    if (!noted(descriptor, NULL))
        return (int)syscall(call, descriptor);
    if (getenv("SWALLOW"))
        return 0;
    if (refused && (early || !getenv("EARLY")) && __atomic_add_fetch(&count, 1, __ATOMIC_SEQ_CST) == atol(refused)) {
        note("refused\n");
        errno = EIO;
        return -1;
    }
    int failed = (int)syscall(call, descriptor);
    note(failed ? "fault\n" : early ? "early\n" : "sync\n");
    return failed;
}

int fsync(int descriptor)
{
    return settle(descriptor, SYS_fsync);
}

int fdatasync(int descriptor)
{
    return settle(descriptor, SYS_fdatasync);
}
