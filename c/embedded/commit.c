/* A commit, whose syncs are made while other threads have the index.

   A step of the log or of a checkpoint makes a write or a sync of the device, and what comes behind that step may rest on
   it. So a sync is never put off: before such a step the thread lets the index go, syncs the file, and takes the index
   again. The sync that the step makes finds nothing to do then, unless others wrote meanwhile. Commits that others
   seal while one is synced are in the log's next batch together. */
#include "index.h"

/* The event that comes next in a call of a session: the one that has to come first, or else a move. */
static gist_c_event event_behind(const gist_c_outcome *outcome, uint8_t session) {
    switch (outcome->kind) {
    case GIST_C_HELP_LOG: return (gist_c_event){.kind = GIST_C_LOG_STEP};
    case GIST_C_HELP_WRITE: return (gist_c_event){.kind = GIST_C_WRITE_PAGE, .page = outcome->page};
    case GIST_C_HELP_CHECKPOINT: return (gist_c_event){.kind = GIST_C_CHECKPOINT_STEP};
    default: return (gist_c_event){.kind = GIST_C_MOVE, .session = session};
    }
}

static bool may_sync(const gist_c_event *event) {
    return event->kind == GIST_C_LOG_STEP || event->kind == GIST_C_CHECKPOINT_STEP;
}

/* Syncs the file while others have the index, and takes the index again. Where this fails the commit may be sealed, so
   that nobody knows whether it is in the file. */
static int sync_ahead(gist_index *index) {
    gist_index_release(index);
    if (!gist_file_sync(&index->file)) return GIST_DEVICE;
    return gist_index_enter(index) == GIST_OK ? GIST_OK : GIST_DEVICE;
}

int gist_commit(gist_index *index, unsigned session, uint64_t *number) {
    uint8_t its = gist_index_session(session);
    gist_c_event event = {.kind = GIST_C_ASK_COMMIT, .session = its};
    int told = gist_index_enter(index);
    if (told != GIST_OK) return told;
    for (;;) {
        gist_c_outcome outcome;
        unsigned status = gx_c_step(&index->handle, &event, &outcome);
        told = gist_index_finish(index, status);
        if (told != GIST_OK || outcome.kind == GIST_C_REPLIED) {
            gist_index_release(index);
            if (told == GIST_OK && number) *number = outcome.number;
            return told;
        }
        event = event_behind(&outcome, its);
        if (!may_sync(&event) || !gist_file_is_due(&index->file)) continue;
        told = sync_ahead(index);
        if (told != GIST_OK) return told;
        /* (what had to come first may have come by now) */
        event = (gist_c_event){.kind = GIST_C_MOVE, .session = its};
    }
}
