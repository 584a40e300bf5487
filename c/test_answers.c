/* Tests of how answers are read, of programs that print what a test says. */
#include "test.h"

#include <string.h>

/* Has a program answer the first line as an index that is open, and then print the text of printf's. */
static gist_index *answering(const char *text) {
    char whole[512];
    gist_index *index = NULL;
    snprintf(whole, sizeof whole, "read line\necho 0 refused 15 bad session\nread line\n%s", text);
    script("answers", whole);
    HOLDS(gist_open(&index, "./answers", "answered", 64, NULL) == GIST_OK);
    return index;
}

/* What a search is answered with, if the program prints this and reads on, or ends. */
static int searched(const char *text, bool ends, gist_entry *first, size_t *count) {
    char whole[384];
    const gist_entry *found;
    snprintf(whole, sizeof whole, "printf '%s'\n%s", text, ends ? "exit 0" : "cat > rest");
    gist_index *index = answering(whole);
    int status = gist_search(index, 1, GIST_OVERLAP, PLANE, &found, count);
    HOLDS(status == GIST_OK || (!found && *count == 0));
    if (status == GIST_OK && *count > 0) *first = found[0];
    gist_close(index, NULL);
    return status;
}

/* What no search is answered with, as printf takes it. */
static const char *const WRONG[] = {
    "1 found 1\\n1 entry 18446744073709551616 0 0 1 1\\n",
    "1 found 1\\n1 entry 99999999999999999999 0 0 1 1\\n",
    "1 found 1\\n1 entry 100000000000000000000 0 0 1 1\\n",
    "1 found 1\\n1 entry 7 0 0 2147483648 1\\n",
    "1 found 1\\n1 entry 7 -2147483649 0 1 1\\n",
    "1 found 1\\n1 entry 7 0 0 18446744073709551617 1\\n",
    "1 found 1\\n1 entry  0 0 1 1\\n",
    "1 found 1\\n1 entry -7 0 0 1 1\\n",
    "1 found 1\\n1 entry 7 - 0 1 1\\n",
    "1 found 1\\n1 entry 7 --1 0 1 1\\n",
    "1 found 1\\n1 entry 7 +0 0 1 1\\n",
    "1 found 1\\n1 entry 7 0x1 0 1 1\\n",
    "1 found 1\\n1 entry 7 0 0 1\\n",
    "1 found 1\\n1 entry 7 0 0 1 1 1\\n",
    "1 found 1\\n1 entry 7 0 0 1 1 \\n",
    "1 found 1\\n1 entry 7\\0 0 0 1 1\\n",
    "1 found 1\\n2 entry 7 0 0 1 1\\n",
    "1 found 1\\n1 entries 7 0 0 1 1\\n",
    "1 found 1\\n1 found 0\\n",
    "1 found 0\\n1 found 0\\n",
    "1 found \\n",
    "1 found -1\\n",
    "1 found 1x\\n1 entry 7 0 0 1 1\\n",
    "1 found 18446744073709551616\\n",
    "1 refused 5 busy\\n",
    "1 refused 5 busy x\\n",
    "1 refused 5 busy 4294967296\\n",
    "1 refused 32 ended\\n",
    "1 refused 6x bad box\\n",
    "1 refused -6 bad box\\n",
};

/* Numbers at the ends of their ranges are read. Those beyond the ends, and words that are no numbers, are no answer. */
void answers(void) {
    gist_entry first;
    size_t count;
    HOLDS(gist_format(NULL, "answered", 8, 4, GIST_OVERWRITE, NULL) == GIST_OK);
    for (size_t i = 0; i < sizeof WRONG / sizeof *WRONG; i++) {
        bool is_none = searched(WRONG[i], false, &first, &count) == GIST_PROTOCOL;
        HOLDS(is_none);
        if (!is_none) printf("answered: %s\n", WRONG[i]);
    }
    HOLDS(searched("1 found 1\\n1 entry 18446744073709551615 -2147483648 -2147483648 2147483647 2147483647\\n", false,
                   &first, &count) == GIST_OK);
    HOLDS(count == 1 && first.row == UINT64_MAX && memcmp(&first.box, &PLANE, sizeof PLANE) == 0);
    HOLDS(searched("1 found 2\\n1 entry 10000000000000000000 0 -1 9 10\\n1 entry 0 0 0 0 0\\n", false, &first,
                   &count) == GIST_OK);
    HOLDS(count == 2 && first.row == UINT64_C(10000000000000000000) && first.box.y1 == -1 && first.box.y2 == 10);
    HOLDS(searched("1 found 0\\n", false, &first, &count) == GIST_OK && count == 0);
    HOLDS(searched("1 refused 5 busy 8\\n", false, &first, &count) == GIST_BUSY);
    HOLDS(searched("1 refused 6 bad box\\n", false, &first, &count) == GIST_BAD_BOX);
}

/* What is cut off is no answer, and what comes in pieces is a whole one. */
void cut_answers(void) {
    gist_entry first;
    size_t count;
    HOLDS(gist_format(NULL, "answered", 8, 4, GIST_OVERWRITE, NULL) == GIST_OK);
    HOLDS(searched("1 found 1\\n1 entry 123", true, &first, &count) == GIST_ENDED);
    HOLDS(searched("1 found 1\\n1 entry 123 0 0 1 1", true, &first, &count) == GIST_ENDED);
    HOLDS(searched("1 found 1", true, &first, &count) == GIST_ENDED);
    HOLDS(searched("1 found 18446744073709551615\\n1 entry 7 0 0 1 1\\n", true, &first, &count) == GIST_ENDED);
    HOLDS(searched("1 found 1", true, &first, &count) == GIST_ENDED);
    gist_index *index = answering("for part in '1 fou' 'nd 1' '2\\n' '1 entry 12' '34 0 -' '21474' '83648 1 1\\n'; do\n"
                                  "printf \"$part\"; sleep 0.02; done\n"
                                  "for row in 1 2 3 4 5 6 7 8 9 10 11; do echo 1 entry $row 0 0 1 1; done\ncat > rest");
    const gist_entry *found;
    HOLDS(gist_search(index, 1, GIST_OVERLAP, PLANE, &found, &count) == GIST_OK && count == 12);
    HOLDS(count == 12 && found[0].row == 1234 && found[0].box.y1 == INT32_MIN && found[11].row == 11);
    HOLDS(gist_close(index, NULL) == GIST_OK);
    uint64_t number = 1;
    index = answering("echo 1 committed 18446744073709551615; read line; echo 1 committed; cat > rest");
    HOLDS(gist_commit(index, 1, &number) == GIST_OK && number == UINT64_MAX);
    HOLDS(gist_commit(index, 1, &number) == GIST_PROTOCOL && gist_close(index, NULL) == GIST_ENDED);
    index = answering("echo 1 committed 7x; cat > rest");
    HOLDS(gist_commit(index, 1, NULL) == GIST_PROTOCOL && gist_close(index, NULL) == GIST_ENDED);
}

/* Answers that are longer than the first buffer, of 65,536 bytes, and than those after it. */
void long_answers(void) {
    static gist_entry entries[500];
    const gist_entry *found;
    gist_box boxes[17];
    gist_hits hits[17];
    size_t count, done, right = 0;
    gist_index *index = fresh("long", 512, 100);
    for (uint64_t from = 0; from < 5000; from += 500) {
        fill(entries, from, 500);
        HOLDS(gist_begin(index, 1) == GIST_OK && gist_insert_many(index, 1, entries, 500, NULL) == GIST_OK);
        HOLDS(gist_commit(index, 1, NULL) == GIST_OK);
    }
    HOLDS(gist_begin(index, 1) == GIST_OK);
    HOLDS(gist_search(index, 1, GIST_OVERLAP, PLANE, &found, &count) == GIST_OK && count == 5000);
    while (right < count && is_entry(&found[right], right)) right++;
    HOLDS(right == 5000);
    for (size_t i = 0; i < 17; i++) boxes[i] = i % 2 ? PLANE : entries[i].box;
    HOLDS(gist_search_many(index, 1, GIST_OVERLAP, boxes, 15, hits, &done) == GIST_OK && done == 15);
    for (size_t i = right = 0; i < 15; i++)
        right += hits[i].count == (i % 2 ? 5000u : 1u) && is_entry(hits[i].found, i % 2 ? 0 : 4500 + i) &&
                 is_entry(hits[i].found + hits[i].count - 1, i % 2 ? 4999 : 4500 + i);
    HOLDS(right == 15);
    /* one that is refused between two that find much; the next call meets its own answer */
    boxes[8].x2 = INT32_MIN;
    HOLDS(gist_search_many(index, 1, GIST_OVERLAP, boxes, 15, hits, &done) == GIST_BAD_BOX && done == 8);
    HOLDS(hits[7].count == 5000 && is_entry(&hits[7].found[4999], 4999) && is_entry(hits[6].found, 4506));
    HOLDS(gist_search(index, 1, GIST_EQUAL, boxes[2], &found, &count) == GIST_OK && count == 1);
    HOLDS(is_entry(found, 4502));
    HOLDS(gist_close(index, NULL) == GIST_OK);
}
