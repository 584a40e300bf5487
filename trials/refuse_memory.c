// Loaded in front of the C library, refuses allocations: the one of the number in REFUSE, counted from 1; all from the first signal
// SIGUSR1 on; and all between one of 1,000,003 bytes and one of 1,000,033. At the end, also by _exit, which runs no destructor, the file
// named by COUNTED, if there is one, gets how many were asked for and how many refused.
#define _GNU_SOURCE
#include <dlfcn.h>
#include <errno.h>
#include <signal.h>
#include <stddef.h>
#include <stdio.h>
#include <stdlib.h>
#include <sys/syscall.h>
#include <unistd.h>

static long count, refused, chosen;
static volatile sig_atomic_t all;

static void refuse_all(int number)
{
    (void)number;
    all = 1;
}

__attribute__((constructor)) static void begin(void)
{
    const char *number = getenv("REFUSE");
    chosen = number ? atol(number) : 0;
    signal(SIGUSR1, refuse_all);
}

__attribute__((destructor)) static void end(void)
{
    const char *path = getenv("COUNTED");
    long asked = count, kept = refused;
    all = 0;
    chosen = 0;
    FILE *file = path ? fopen(path, "w") : NULL;
    if (file) {
        fprintf(file, "%ld %ld\n", asked, kept);
        fclose(file);
    }
}

void _exit(int status)
{
    end();
    syscall(SYS_exit_group, status);
    __builtin_unreachable();
}

static int refuses(void)
{
    if (++count != chosen && !all)
        return 0;
    refused++;
    errno = ENOMEM;
    return 1;
}

void *malloc(size_t size)
{
    static void *(*next)(size_t);
    if (!next)
        next = (void *(*)(size_t))dlsym(RTLD_NEXT, "malloc");
    if (size == 1000033)
        all = 0;
    if (refuses())
        return NULL;
    if (size == 1000003)
        all = 1;
    return next(size);
}

void *realloc(void *old, size_t size)
{
    static void *(*next)(void *, size_t);
    if (!next)
        next = (void *(*)(void *, size_t))dlsym(RTLD_NEXT, "realloc");
    return refuses() ? NULL : next(old, size);
}
