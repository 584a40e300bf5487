/* The client's texts: its version, and what each status means. */
#include "gist_client.h"

typedef struct text {
    const char *brief; /* the program's own text for it */
    const char *whole; /* with what to do */
} text;

static const text TEXTS[] = {
    [GIST_OK] = {"ok", "all was done"},
    [GIST_NO_TRANSACTION] = {"no transaction", "no transaction: the session has none; call gist_begin first"},
    [GIST_IN_TRANSACTION] = {"in transaction",
                             "in transaction: the session has one; commit it, or take another session"},
    [GIST_PRESENT] = {"present", "present: the entry is there already; nothing was inserted"},
    [GIST_ABSENT] = {"absent", "absent: there is no entry of this row with just this box; nothing was deleted"},
    [GIST_BUSY] = {"busy",
                   "busy: another session (gist_busy) wrote or searched this; call again once it has ended, and of "
                   "two that wait for each other abort one"},
    [GIST_BAD_BOX] = {"bad box", "bad box: x2 < x1, y2 < y1 or z2 < z1; exchange the corners"},
    [GIST_PAGES_FULL] = {"pages full", "pages full: no page is left; make a larger index and insert all entries there"},
    [GIST_CLAIMS_FULL] = {"claims full",
                          "claims full: at most 512 entries in all open transactions; commit more often"},
    [GIST_PREDICATES_FULL] = {"predicates full",
                              "predicates full: at most 16 different searches a transaction; begin another"},
    [GIST_MEMORY] = {"memory", "memory: the system refused memory; make the call again, or open with fewer frames"},
    [GIST_DEVICE] = {"device",
                     "device: the file isn't there, is in use, or a call of it failed (gist_end says which); "
                     "open it again: what was answered as committed is there"},
    [GIST_FAILED] = {"failed", "failed: an earlier call of the file failed; close the index and open it again"},
    [GIST_DAMAGED] = {"damaged", "damaged: the file holds what no index wrote (gist_end says where); restore a copy"},
    [GIST_NOT_FORMATTED] = {"not formatted", "not formatted: the file holds no index; gist_format makes one"},
    [GIST_BAD_SESSION] = {"bad session", "bad session: sessions are 1 to 8"},
    [GIST_CALL_OPEN] = {"call open", "call open: the session's last call isn't answered yet"},
    [GIST_TOO_SMALL] = {"too small", "too small: the file is shorter than its index, or than any; restore a copy"},
    [GIST_BAD_PARAMETER] = {"bad parameter",
                            "bad parameter: the index is of other keys (gist_dimensions), or has numbers that none has"},
    [GIST_NO_CALL] = {"no call", "no call: an answer was asked for where no call is open"},
    [GIST_HISTORY_FULL] = {"history full", "history full: all numbers of commits are used up; make a fresh index"},
    [GIST_OLD_VERSION] = {"old version",
                          "old version: the index is of an older version; gist_migrate brings it into a new file"},
    [GIST_ENDED] = {"the program has ended",
                    "the program has ended, and with it all open transactions (gist_end says why); "
                    "open the file again: what was answered as committed is there"},
    [GIST_PROTOCOL] =
        {"the program answered what no gist of this kind answers",
         "the program answered what no gist of this kind answers, and was ended; see which program it is"},
    [GIST_SYSTEM] = {"a call of the system failed",
                     "a call of the system failed, or this call makes no sense; see errno"},
};

static const text *text_of(int status) {
    static const text NONE = {"no status", "no status of this client"};
    int count = sizeof TEXTS / sizeof *TEXTS;
    return status >= 0 && status < count && TEXTS[status].brief ? &TEXTS[status] : &NONE;
}

const char *gist_text(int status) {
    return text_of(status)->brief;
}

const char *gist_strerror(int status) {
    return text_of(status)->whole;
}

const char *gist_version(void) {
    return GIST_VERSION;
}
