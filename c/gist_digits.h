/* How numbers and words are read from a line and written to one, by hand: the C library's calls for that take several
   times as long. A line that is read ends in a line feed or a 0. For the client's own files. */
#ifndef GIST_DIGITS_H
#define GIST_DIGITS_H

#include <stdbool.h>
#include <stddef.h>
#include <stdint.h>

/* Reads a number below 2^64, of one to twenty digits. Returns the place after it, or NULL if there is none. */
static inline const char *gist_read_number(const char *at, uint64_t *number) {
    const char *begins = at;
    uint64_t read = 0;
    for (unsigned digit; (digit = (unsigned)*at - '0') <= 9; at++) read = 10 * read + digit;
    *number = read;
    /* (nineteen digits always fit; twenty do if they begin with 1, and if no 2^64 was lost, which leaves less than
       10^19) */
    if (at - begins < 20) return at > begins ? at : NULL;
    return at - begins == 20 && *begins == '1' && read >= UINT64_C(10000000000000000000) ? at : NULL;
}

/* Reads a corner of 32 bits, with a minus sign or without, in the same manner. */
static inline const char *gist_read_corner(const char *at, int32_t *corner) {
    bool is_negative = *at == '-';
    uint64_t size;
    at = gist_read_number(at + is_negative, &size);
    if (!at || size > (uint64_t)INT32_MAX + is_negative) return NULL;
    *corner = (int32_t)(is_negative ? -(int64_t)size : (int64_t)size);
    return at;
}

/* Returns the place after a text, or NULL if that text isn't there. */
static inline const char *gist_read_text(const char *at, const char *text) {
    for (; *text; at++, text++)
        if (*at != *text) return NULL;
    return at;
}

/* Each of these writes, and returns the place after that: a number has 20 digits at most, a corner 11 bytes. */
static inline char *gist_write_number(char *to, uint64_t number) {
    char digits[20];
    size_t count = 0;
    do digits[count++] = (char)('0' + number % 10);
    while ((number /= 10) > 0);
    while (count > 0) *to++ = digits[--count];
    return to;
}

static inline char *gist_write_corner(char *to, int32_t corner) {
    int64_t size = corner;
    if (size < 0) {
        *to++ = '-';
        size = -size;
    }
    return gist_write_number(to, (uint64_t)size);
}

static inline char *gist_write_text(char *to, const char *text) {
    while (*text) *to++ = *text++;
    return to;
}

#endif
