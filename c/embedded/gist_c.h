/* The proved functions of crates/gx_c, as C calls them. A parameter of type `Global` takes no bytes, and is left out;
   a slice is a pointer, which isn't NULL, and a length. Each status is 0 or a refusal's number, and for GIST_BUSY 256
   times the session besides. */
#ifndef GIST_C_H
#define GIST_C_H

#include "../gist.h"

#include <stddef.h>
#include <stdint.h>

/* NULL until gx_c_create, which is called first and once; nothing behind gx_c_free. */
typedef struct gist_c_handle {
    uint8_t *at;
} gist_c_handle;

/* A call of the device. */
enum { GIST_C_NONE, GIST_C_WRITE, GIST_C_SYNC };

typedef struct gist_c_call {
    uint32_t kind;
    uint64_t first; /* the sector from which on it writes */
    size_t size;    /* how many bytes */
} gist_c_call;

/* An event of the index. */
enum {
    GIST_C_ASK_BEGIN,
    GIST_C_ASK_COMMIT,
    GIST_C_ASK_ABORT,
    GIST_C_MOVE,
    GIST_C_LOG_STEP,
    GIST_C_WRITE_PAGE,
    GIST_C_CHECKPOINT_STEP,
    GIST_C_SWEEP
};

typedef struct gist_c_event {
    uint32_t kind;
    uint8_t session; /* of an ask and a move */
    uint32_t page;   /* that is written or swept */
} gist_c_event;

/* What came of it: the session's call has ended, or the event was refused; it did its work; there was nothing to do; or
   the event that is named has to come first. */
enum { GIST_C_REPLIED, GIST_C_MORE, GIST_C_IDLE, GIST_C_HELP_LOG, GIST_C_HELP_WRITE, GIST_C_HELP_CHECKPOINT };

typedef struct gist_c_outcome {
    uint32_t kind;
    uint32_t page;   /* that has to be written */
    uint64_t number; /* of a commit */
} gist_c_outcome;

/* How many entries weren't told yet, and how many are now. */
typedef struct gist_c_count {
    size_t found, told;
} gist_c_count;

/* What an index holds. */
typedef struct gist_c_report {
    uint64_t commits, entries;
    uint32_t used;
} gist_c_report;

uint16_t gx_c_create(gist_c_handle *handle);
void gx_c_free(gist_c_handle *handle);
uint16_t gx_c_reserve(gist_c_handle *handle, size_t size);
uint16_t gx_c_append(gist_c_handle *handle, const uint8_t *bytes, size_t size);
uint16_t gx_c_device(gist_c_handle *handle);
uint16_t gx_c_class(gist_c_handle *handle, uint16_t *key_class);
uint16_t gx_c_format(gist_c_handle *handle, uint32_t pages, uint16_t fanout);
uint16_t gx_c_format3(gist_c_handle *handle, uint32_t pages, uint16_t fanout);
uint16_t gx_c_open(gist_c_handle *handle, size_t frames);
uint16_t gx_c_open3(gist_c_handle *handle, size_t frames);
uint16_t gx_c_verify(gist_c_handle *handle, size_t frames, gist_c_report *report);
uint16_t gx_c_verify3(gist_c_handle *handle, size_t frames, gist_c_report *report);
uint16_t gx_c_settle(gist_c_handle *handle);
uint16_t gx_c_close(gist_c_handle *handle);
uint16_t gx_c_next(gist_c_handle *handle, gist_c_call *call, uint8_t *bytes, size_t size);
uint16_t gx_c_step(gist_c_handle *handle, const gist_c_event *event, gist_c_outcome *outcome);
uint16_t gx_c_begin(gist_c_handle *handle, uint8_t session);
uint16_t gx_c_abort(gist_c_handle *handle, uint8_t session);
uint16_t gx_c_commit(gist_c_handle *handle, uint8_t session, uint64_t *number);
uint16_t gx_c_insert(gist_c_handle *handle, uint8_t session, uint64_t row, const gist_box *box);
uint16_t gx_c_insert3(gist_c_handle *handle, uint8_t session, uint64_t row, const gist_box3 *box);
uint16_t gx_c_delete(gist_c_handle *handle, uint8_t session, uint64_t row, const gist_box *box);
uint16_t gx_c_delete3(gist_c_handle *handle, uint8_t session, uint64_t row, const gist_box3 *box);
uint16_t gx_c_search(gist_c_handle *handle, uint8_t session, uint8_t kind, const gist_box *box, gist_entry *out,
                     size_t places, gist_c_count *count);
uint16_t gx_c_search3(gist_c_handle *handle, uint8_t session, uint8_t kind, const gist_box3 *box, gist_entry3 *out,
                      size_t places, gist_c_count *count);
uint16_t gx_c_more(gist_c_handle *handle, uint8_t session, gist_entry *out, size_t places, gist_c_count *count);
uint16_t gx_c_more3(gist_c_handle *handle, uint8_t session, gist_entry3 *out, size_t places, gist_c_count *count);

#endif
