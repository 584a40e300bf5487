/* What the tests of the client share. */
#ifndef TEST_H
#define TEST_H

#include "gist_client.h"

#include <stdbool.h>

extern const gist_box PLANE;

/* Counts a fault if something doesn't hold. */
void check(bool holds, const char *what, const char *file, int line);
#define HOLDS(what) check(what, #what, __FILE__, __LINE__)

/* The entry of a row, whose box is its own; whether that is it; and those of rows one after another. */
gist_entry entry_of(uint64_t row);
bool is_entry(const gist_entry *it, uint64_t row);
void fill(gist_entry *entries, uint64_t from, size_t count);

/* The index in a file, opened; a new one; and how many entries a file holds, which have to be those of the rows 0, 1, 2
 * .. */
gist_index *opened(const char *path);
gist_index *fresh(const char *path, unsigned pages, unsigned fanout);
size_t found_in(const char *path);

/* Makes a program of the shell's, which does what the text says. */
void script(const char *path, const char *text);

/* The tests. */
void calls(void);
void refusals(void);
void many(void);
void sessions(void);
void searches(void);
void space(void);
void space_many(void);
void wrong_boxes(void);
void openings(void);
void overwriting(void);
void migrations(void);
void counts(void);
void installed(void);
void killed(void);
void full_disk(void);
void surroundings(void);
void ends(void);
void odd_answers(void);
void answers(void);
void cut_answers(void);
void long_answers(void);
void threads(void);
void shared(void);
void forked(void);
void interrupted(void);
void nonsense(void);
void stopped(void);
void descriptors_end(void);
void memory_ends(void);

#endif
