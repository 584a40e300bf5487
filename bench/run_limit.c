/* Makes the writes and syncs of a list on a file, and nothing else: what a device takes for them. The list has lines `w PLACE
   LENGTH` (bytes) and `s` on standard input; it is read before the clock starts. Prints seconds, writes, bytes and syncs. */
#define _GNU_SOURCE
#include <fcntl.h>
#include <stdio.h>
#include <stdlib.h>
#include <string.h>
#include <time.h>
#include <unistd.h>

struct call { long place; long length; };

int main(int count, char **words) {
    size_t room = 1 << 20, calls = 0;
    struct call *list = malloc(room * sizeof *list);
    char *bytes = malloc(1 << 20), line[128];
    long writes = 0, written = 0, syncs = 0;
    struct timespec from, to;
    if (count != 2 || !list || !bytes) { fprintf(stderr, "usage: run_limit FILE < CALLS\n"); return 2; }
    memset(bytes, 0x5a, 1 << 20);
    while (fgets(line, sizeof line, stdin)) {
        if (calls == room) {
            room *= 2;
            list = realloc(list, room * sizeof *list);
            if (!list) return 1;
        }
        if (line[0] == 's') {
            list[calls].length = 0;
            calls++;
        } else if (sscanf(line, "w %ld %ld", &list[calls].place, &list[calls].length) == 2 && list[calls].length <= 1 << 20) {
            calls++;
        } else {
            fprintf(stderr, "run_limit: %s", line);
            return 2;
        }
    }
    int file = open(words[1], O_RDWR);
    if (file < 0) { perror(words[1]); return 1; }
    clock_gettime(CLOCK_MONOTONIC, &from);
    for (size_t i = 0; i < calls; i++) {
        if (list[i].length == 0) {
            if (fdatasync(file) != 0) { perror("fdatasync"); return 1; }
            syncs++;
        } else {
            if (pwrite(file, bytes, (size_t)list[i].length, list[i].place) != list[i].length) { perror("pwrite"); return 1; }
            writes++;
            written += list[i].length;
        }
    }
    clock_gettime(CLOCK_MONOTONIC, &to);
    printf("%.3f s, %ld writes of %ld bytes, %ld syncs\n", (double)(to.tv_sec - from.tv_sec) + (double)(to.tv_nsec - from.tv_nsec) / 1e9, writes,
           written, syncs);
    close(file);
    return 0;
}
