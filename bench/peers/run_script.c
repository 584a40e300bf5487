/* Does the work of a script of `gist run` by another index: the same lines, in one session. Each line is `1 WORD ..` as
   docs/SCRIPT.md has it; BEGIN, INSERT, DELETE, OVERLAP, COMMIT and ABORT are known. What is found is printed as gist
   prints it, and to standard error how many that were. The argument is the index's path. */
#include "peers.h"

#include <inttypes.h>
#include <string.h>
#include <unistd.h>

static unsigned long count;

static void print(const pair *it) {
    count++;
    printf("1 entry %" PRIu64 " %" PRId32 " %" PRId32 " %" PRId32 " %" PRId32 "\n", it->row, it->x1, it->y1, it->x2,
           it->y2);
}

int main(int words_count, char **words) {
    char line[1100], word[16];
    if (words_count != 2) stop("usage", "FILE < SCRIPT");
    peer_open(words[1], 0, access(words[1], F_OK) != 0);
    while (fgets(line, sizeof line, stdin)) {
        pair it = {0};
        const char *rest = NULL;
        if (sscanf(line, "%*u %15s", word) != 1) continue;
        rest = strstr(line, word) + strlen(word);
        int read =
            strcmp(word, "OVERLAP") == 0
                ? 1 + sscanf(rest, "%" SCNd32 " %" SCNd32 " %" SCNd32 " %" SCNd32, &it.x1, &it.y1, &it.x2, &it.y2)
                : sscanf(rest, "%" SCNu64 " %" SCNd32 " %" SCNd32 " %" SCNd32 " %" SCNd32, &it.row, &it.x1, &it.y1,
                         &it.x2, &it.y2);
        if (strcmp(word, "BEGIN") == 0) {
            peer_begin();
        } else if (strcmp(word, "COMMIT") == 0) {
            peer_commit();
        } else if (strcmp(word, "ABORT") == 0) {
            peer_abort();
        } else if (read != 5) {
            stop("an unknown line", line);
        } else if (strcmp(word, "INSERT") == 0) {
            peer_insert(&it, 1);
        } else if (strcmp(word, "DELETE") == 0) {
            peer_delete(&it, 1);
        } else if (strcmp(word, "OVERLAP") == 0) {
            peer_search(&it, print);
        } else {
            stop("an unknown line", line);
        }
    }
    peer_close();
    fprintf(stderr, "found %lu\n", count);
    return 0;
}
