// The device calls of a log's batches alone, beside the proved log of gx_bench_runs: a body of 32,768 bytes, a sync, a gate of
// 512 bytes, a sync, over the same places of a file. The argument is how many times 128 batches are written.
#define _GNU_SOURCE
#include <fcntl.h>
#include <stdint.h>
#include <stdio.h>
#include <stdlib.h>
#include <string.h>
#include <unistd.h>

enum { SECTOR = 512, SECTORS = 16648, BODY = 32768, PLACES = 128, GATES = 8, BODIES = 136 };

static uint8_t body[BODY], gate[SECTOR];

static void stop(const char *what) {
    fprintf(stderr, "%s\n", what);
    exit(1);
}

int main(int count, char **words) {
    if (count != 2)
        return 2;
    uint64_t rounds = strtoull(words[1], NULL, 10);
    int file = open("log.device", O_RDWR | O_CREAT, 0666);
    if (file < 0 || ftruncate(file, SECTOR * SECTORS) != 0)
        stop("no file");
    memset(body, 1, BODY);
    gate[0] = 0xA7;
    for (uint64_t round = 0; round < rounds; round++)
        for (int place = 0; place < PLACES; place++) {
            if (pwrite(file, body, BODY, SECTOR * (BODIES + 64 * place)) != BODY || fdatasync(file) != 0)
                stop("a body failed");
            if (pwrite(file, gate, SECTOR, SECTOR * (GATES + place)) != SECTOR || fdatasync(file) != 0)
                stop("a gate failed");
        }
    return 0;
}
