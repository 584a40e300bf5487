/* How the client starts, reads and ends a program; gist_run.h says what each function does. */
#define _GNU_SOURCE /* pipe2, memfd_create, POSIX_SPAWN_SETSID */
#include "gist_run.h"

#include "gist_digits.h"

#include <errno.h>
#include <fcntl.h>
#include <signal.h>
#include <spawn.h>
#include <stdbool.h>
#include <stdlib.h>
#include <string.h>
#include <sys/mman.h>
#include <sys/socket.h>
#include <sys/wait.h>
#include <unistd.h>

#ifdef __GLIBC__
#if __GLIBC_PREREQ(2, 34)
#define HAS_CLOSEFROM
#endif
#endif

int gist_run_invalid(void) {
    errno = EINVAL;
    return GIST_SYSTEM;
}

/* Moves a descriptor above the standard ones, which a program gets, so that none of them is in another's way. */
static int above(int one) {
    if (one > STDERR_FILENO) return one;
    int other = fcntl(one, F_DUPFD_CLOEXEC, STDERR_FILENO + 1);
    close(one);
    return other;
}

static void shut(int *descriptor) {
    if (*descriptor >= 0) close(*descriptor);
    *descriptor = -1;
}

/* The environment for the program: this process's, by which a launcher that isn't built starts no build. NULL if
   memory is refused. */
static char **environment(void) {
    static char no_build[] = "GIST_NO_BUILD=1";
    size_t count = 0;
    while (environ && environ[count]) count++;
    char **all = calloc(count + 2, sizeof *all);
    if (!all) return NULL;
    if (count > 0) memcpy(all, environ, count * sizeof *all);
    all[count] = no_build;
    return all;
}

/* Starts the program on these streams and with no other descriptor, if the C library can do that; with no signal
   blocked; and in a separate session, so that a Ctrl-C meant for this process doesn't end it in the middle of a
   transaction. Returns 0, or the error's number. */
static int spawn(pid_t *pid, const char *const *words, const int streams[3]) {
    posix_spawn_file_actions_t actions;
    posix_spawnattr_t how;
    sigset_t none;
    char **around = environment();
    int failed = around ? 0 : ENOMEM;
    sigemptyset(&none);
    posix_spawnattr_init(&how);
    posix_spawnattr_setsigmask(&how, &none);
    posix_spawnattr_setflags(&how, POSIX_SPAWN_SETSID | POSIX_SPAWN_SETSIGMASK);
    posix_spawn_file_actions_init(&actions);
    for (int i = 0; i < 3 && !failed; i++) failed = posix_spawn_file_actions_adddup2(&actions, streams[i], i);
#ifdef HAS_CLOSEFROM
    if (!failed) failed = posix_spawn_file_actions_addclosefrom_np(&actions, STDERR_FILENO + 1);
#endif
    if (!failed) failed = posix_spawn(pid, words[0], &actions, &how, (char *const *)(uintptr_t)words, around);
    posix_spawn_file_actions_destroy(&actions);
    posix_spawnattr_destroy(&how);
    free(around);
    return failed;
}

/* Its standard input is a socket: the program learns that it ends there even if a process that was forked off
   meanwhile holds the descriptor too. */
int gist_run_start(gist_run *made, const char *program, const char **words) {
    int lines[2] = {-1, -1}, answers[2] = {-1, -1};
    *made = (gist_run){.faults = -1};
    words[0] = program ? program : getenv("GIST");
    errno = ENOENT;
    bool is_ready = words[0] && socketpair(AF_UNIX, SOCK_STREAM | SOCK_CLOEXEC, 0, lines) == 0 &&
                    pipe2(answers, O_CLOEXEC) == 0 && (made->faults = memfd_create("gist", MFD_CLOEXEC)) >= 0 &&
                    (made->faults = above(made->faults)) >= 0 && (lines[1] = above(lines[1])) >= 0 &&
                    (answers[1] = above(answers[1])) >= 0;
    int failed = is_ready ? spawn(&made->pid, words, (int[]){lines[1], answers[1], made->faults}) : errno;
    made->to = lines[0], made->from = answers[0];
    shut(&lines[1]), shut(&answers[1]);
    if (!failed) return GIST_OK;
    gist_run_forget(made);
    errno = failed;
    return GIST_SYSTEM;
}

ssize_t gist_run_read(const gist_run *it, char *bytes, size_t room) {
    ssize_t got;
    do got = read(it->from, bytes, room);
    while (got < 0 && errno == EINTR);
    return got;
}

void gist_run_close_input(gist_run *it) {
    shutdown(it->to, SHUT_WR);
    shut(&it->to);
}

void gist_run_forget(gist_run *it) {
    shut(&it->to), shut(&it->from), shut(&it->faults);
}

int gist_run_refusal(const char *words) {
    uint64_t number;
    words = gist_read_number(words, &number);
    return words && *words == ' ' && number >= 1 && number < GIST_ENDED ? (int)number : GIST_PROTOCOL;
}

/* What a signal says about the end that it brings. */
static const char *cause(int signal) {
    switch (signal) {
        case SIGKILL: return "SIGKILL killed it: another process sent that, or the system because memory ran out";
        case SIGTERM: return "SIGTERM asked it to end";
        case SIGHUP: return "SIGHUP asked it to end";
        case SIGINT: return "SIGINT asked it to end";
        case SIGXFSZ: return "SIGXFSZ ended it: a file would have outgrown the limit on file sizes";
        case SIGXCPU: return "SIGXCPU ended it: it used up the limit on processor time";
        case SIGSEGV: return "SIGSEGV ended it, a fault of the program or of the memory";
        case SIGBUS: return "SIGBUS ended it, a fault of the program or of the memory";
        case SIGABRT: return "SIGABRT ended it, a fault of the program";
        default: return "a signal ended it";
    }
}

/* Puts what the program wrote to standard error into the sentence, without its name and line feeds at the end; and
   a text for how it ended, if a signal did that or it wrote nothing. */
static void tell(gist_end *end, int faults) {
    char *told = end->sentence;
    if (end->status < 0) told += snprintf(told, 256, "ended because %s (signal %d)", cause(-end->status), -end->status);
    size_t begins = (size_t)(told - end->sentence) + (end->status < 0 ? 2 : 0);
    ssize_t length = pread(faults, end->sentence + begins, sizeof end->sentence - begins - 1, 0);
    while (length > 0 && end->sentence[begins + (size_t)length - 1] == '\n') length--;
    if (length > 0) {
        char *text = end->sentence + begins;
        if (end->status < 0) memcpy(told, "; ", 2);
        text[length] = 0;
        if (strncmp(text, "gist: ", 6) == 0) memmove(text, text + 6, strlen(text) - 5);
    } else {
        *told = 0;
        if (end->status > 0) snprintf(told, 256, "ended with status %d and said nothing", end->status);
    }
}

int gist_run_finish(gist_run *it, const char *last, gist_end *end) {
    int status = 0;
    pid_t ended;
    *end = (gist_end){0};
    while ((ended = waitpid(it->pid, &status, 0)) < 0 && errno == EINTR) continue;
    if (ended >= 0) end->status = WIFSIGNALED(status) ? -WTERMSIG(status) : WEXITSTATUS(status);
    tell(end, it->faults);
    /* (a process that ignores SIGCHLD gets no status; then the sentence says whether there was a fault) */
    if (ended < 0) end->status = end->sentence[0] != 0;
    gist_run_forget(it);
    int refused = strncmp(last, "refused ", 8) == 0 ? gist_run_refusal(last + 8) : GIST_PROTOCOL;
    return end->status == 0 ? GIST_OK : refused != GIST_PROTOCOL ? refused : GIST_ENDED;
}
