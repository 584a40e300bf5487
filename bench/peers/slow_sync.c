/* Preloaded, makes each sync of a file take a millisecond more, as on a disk that is slower. */
#define _GNU_SOURCE
#include <sys/syscall.h>
#include <time.h>
#include <unistd.h>

static int slowly(long number, int file) {
    nanosleep(&(struct timespec){.tv_nsec = 1000000}, NULL);
    return (int)syscall(number, file);
}

int fsync(int file) {
    return slowly(SYS_fsync, file);
}

int fdatasync(int file) {
    return slowly(SYS_fdatasync, file);
}
