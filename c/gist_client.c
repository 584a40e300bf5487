/* An open index of the client, and the calls without boxes; gist_client.h says what each call does. */
#define _GNU_SOURCE
#include "gist_digits.h"
#include "gist_index.h"

#include <errno.h>
#include <limits.h>
#include <signal.h>
#include <stdbool.h>
#include <stdlib.h>
#include <string.h>
#include <sys/socket.h>
#include <unistd.h>

int gist_index_usable(const gist_index *index) {
    if (!index) return gist_run_invalid();
    if (index->owner == getpid()) return GIST_OK;
    errno = ECHILD;
    return GIST_SYSTEM;
}

/* Makes the room for answers larger. One byte of it is for the 0 after them. */
static bool grow(gist_index *index) {
    size_t room = index->room ? 2 * index->room : 1 << 16;
    char *bytes = realloc(index->bytes, room);
    if (!bytes) return false;
    index->bytes = bytes;
    index->room = room;
    return true;
}

/* Reads what has come after the answers that are kept. Returns how much, 0 at the end of all, -1 for a fault. */
static ssize_t read_more(gist_index *index) {
    ssize_t got = gist_run_read(&index->run, index->bytes + index->length, index->room - index->length - 1);
    index->length += got > 0 ? (size_t)got : 0;
    index->bytes[index->length] = 0;
    return got;
}

/* Ends the script, or the program at once, and reads until it has ended. From then on each call returns that it has. */
static int lose(gist_index *index, bool at_once) {
    if (at_once) kill(-index->run.pid, SIGKILL);
    gist_run_close_input(&index->run);
    do {
        /* (only the last line counts) */
        if (index->length > index->room / 2) {
            memmove(index->bytes, index->bytes + index->length - GIST_LINE, GIST_LINE);
            index->length = GIST_LINE;
        }
    } while (read_more(index) > 0);
    char *last = index->bytes + index->length;
    while (last > index->bytes && (last[0] == 0 || last[-1] != '\n')) last--;
    int told = gist_run_finish(&index->run, last, &index->end);
    index->status = told == GIST_OK ? GIST_ENDED : told;
    return told;
}

/* The program broke off. */
static int lost(gist_index *index) {
    static const char UNASKED[] = "ended before it was asked to, and said nothing";
    lose(index, false);
    if (index->end.sentence[0] == 0) memcpy(index->end.sentence, UNASKED, sizeof UNASKED);
    return index->status;
}

int gist_index_senseless(gist_index *index) {
    lose(index, true);
    return GIST_PROTOCOL;
}

const char *gist_index_last_number(const char *at, uint64_t *number) {
    at = gist_read_number(at, number);
    return at && *at == '\n' ? at + 1 : NULL;
}

/* How many lines follow that the first line of an answer announces. */
static size_t announced(const char *line) {
    uint64_t session, found;
    if (!(line = gist_read_number(line, &session)) || !(line = gist_read_text(line, " found "))) return 0;
    return gist_index_last_number(line, &found) ? (size_t)found : 0;
}

/* The next line feed of what was read, or NULL if none has come. */
static const char *next_feed(const gist_index *index, size_t from) {
    return memchr(index->bytes + from, '\n', index->length - from);
}

/* Leaves the line that isn't whole yet, if there is no room for more. */
static void drop_lines(gist_index *index, size_t begins) {
    index->length = begins > 0 ? index->length - begins : 0;
    memmove(index->bytes, index->bytes + begins, index->length);
}

/* Reads the answers of so many calls: lines, of which a search's has more than one. */
static int read_answers(gist_index *index, size_t calls) {
    size_t begins = 0, behind = 0; /* where the next line begins, and how many of it are the last answer's */
    bool is_lacking = false;
    index->length = 0;
    while (calls > 0 || behind > 0) {
        if (index->length + 1 == index->room && !grow(index)) {
            /* (the rest is read all the same, so that the next call meets its own answer) */
            is_lacking = true;
            drop_lines(index, begins);
            begins = 0;
        }
        if (read_more(index) <= 0) return lost(index);
        for (const char *at; (at = next_feed(index, begins)); begins = (size_t)(at + 1 - index->bytes)) {
            if (behind == 0 && calls == 0) return gist_index_senseless(index);
            if (behind > 0) {
                behind--;
            } else {
                calls--;
                behind = announced(index->bytes + begins);
            }
        }
    }
    if (begins < index->length) return gist_index_senseless(index);
    if (!is_lacking) return GIST_OK;
    errno = ENOMEM;
    return GIST_SYSTEM;
}

int gist_index_exchange(gist_index *index, const char *lines, size_t length, size_t calls) {
    if (index->status != GIST_OK) return GIST_ENDED;
    for (ssize_t sent; length > 0; lines += sent, length -= (size_t)sent) {
        sent = send(index->run.to, lines, length, MSG_NOSIGNAL);
        if (sent < 0 && errno != EINTR) {
            index->length = 0;
            return lost(index);
        }
        if (sent < 0) sent = 0;
    }
    return read_answers(index, calls);
}

/* Reads which session another one is in the way of. Returns whether the refusal says so. */
static bool read_busy(gist_index *index, const char *refused) {
    uint64_t other;
    const char *words = gist_read_text(refused, "5 busy ");
    if (!words || !gist_index_last_number(words, &other) || other > UINT_MAX) return false;
    index->busy = (unsigned)other;
    return true;
}

int gist_index_answer(gist_index *index, unsigned session, const char *line, const char *expected, const char **rest) {
    uint64_t number;
    if (gist_read_text(line, "refused ")) return lost(index);
    const char *words = gist_read_number(line, &number);
    if (!words || *words != ' ' || number != session) return gist_index_senseless(index);
    words++;
    if ((*rest = gist_read_text(words, expected))) return GIST_OK;
    const char *refused = gist_read_text(words, "refused ");
    int told = refused ? gist_run_refusal(refused) : GIST_PROTOCOL;
    if (told == GIST_BUSY && !read_busy(index, refused)) told = GIST_PROTOCOL;
    return told == GIST_PROTOCOL ? gist_index_senseless(index) : told;
}

/* Makes one call, with these words after the session. */
static int call(gist_index *index, unsigned session, const char *words, const char *expected, const char **rest) {
    char line[GIST_LINE];
    const char *unused;
    int told = gist_index_usable(index);
    if (told != GIST_OK) return told;
    char *behind = gist_write_text(gist_write_number(line, session), " ");
    behind = gist_write_text(gist_write_text(behind, words), "\n");
    told = gist_index_exchange(index, line, (size_t)(behind - line), 1);
    return told == GIST_OK ? gist_index_answer(index, session, index->bytes, expected, rest ? rest : &unused) : told;
}

/* Frees what this process has of an index. */
static void drop(gist_index *index) {
    if (!index) return;
    gist_run_forget(&index->run);
    free(index->bytes);
    free(index->found);
    free(index);
}

/* Waits until the index is open, and sees which boxes it has. With another status than GIST_OK the program has ended. */
static int greet(gist_index *made, const char *path) {
    /* (this changes nothing, and is answered once the index is open; nobody else can format the file from then on) */
    int told = call(made, 0, "ABORT", "aborted\n", NULL);
    if (told != GIST_BAD_SESSION) return made->status == GIST_OK ? gist_index_senseless(made) : told;
    told = gist_run_dimensions(path, &made->dimensions);
    int failed = errno;
    if (told != GIST_OK) lose(made, false);
    errno = failed;
    return told;
}

int gist_open(gist_index **index, const char *program, const char *path, unsigned frames, gist_end *end) {
    char count[16];
    if (end) *end = (gist_end){0};
    if (!index) return gist_run_invalid();
    *index = NULL;
    if (!path) return gist_run_invalid();
    const char *words[] = {NULL, "run", "--frames", count, "--", path, NULL};
    snprintf(count, sizeof count, "%u", frames ? frames : gist_run_frames(path));
    gist_index *made = calloc(1, sizeof *made);
    if (!made) return GIST_SYSTEM;
    made->owner = getpid();
    made->run = (gist_run){.to = -1, .from = -1, .faults = -1};
    int told = grow(made) ? gist_run_start(&made->run, program, words) : GIST_SYSTEM;
    if (told == GIST_OK) {
        told = greet(made, path);
        if (told == GIST_OK) {
            *index = made;
            return GIST_OK;
        }
        if (end) *end = made->end;
    }
    int failed = errno;
    drop(made);
    errno = failed;
    return told;
}

int gist_close(gist_index *index, gist_end *end) {
    int told = GIST_OK;
    if (end) *end = (gist_end){0};
    if (gist_index_usable(index) == GIST_OK) {
        index->length = 0;
        told = index->status == GIST_OK ? lose(index, false) : index->status;
        if (end) *end = index->end;
    }
    drop(index);
    return told;
}

int gist_begin(gist_index *index, unsigned session) {
    return call(index, session, "BEGIN", "ok\n", NULL);
}

int gist_commit(gist_index *index, unsigned session, uint64_t *number) {
    const char *rest = NULL;
    int told = call(index, session, "COMMIT", "committed ", &rest);
    if (told != GIST_OK) return told;
    uint64_t made;
    if (!gist_index_last_number(rest, &made)) return gist_index_senseless(index);
    if (number) *number = made;
    return GIST_OK;
}

int gist_abort(gist_index *index, unsigned session) {
    return call(index, session, "ABORT", "aborted\n", NULL);
}

unsigned gist_dimensions(const gist_index *index) {
    return index ? index->dimensions : 0;
}

unsigned gist_busy(const gist_index *index) {
    return index ? index->busy : 0;
}

long gist_pid(const gist_index *index) {
    return index ? index->run.pid : 0;
}
