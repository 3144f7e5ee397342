/* See costore.h. These are the calls of the library that are written in C. */
#include "costore_file.h"

/* Gives the memory of a handle back. The handle is passed by value: its pointer stays where it is. */
void costore_end(costore store);

void costore_free(costore *store) {
    if (!store->at)
        return;
    costore_end(*store);
    store->at = NULL;
}

const char *costore_word(int32_t code) {
    switch (code) {
    case COSTORE_DONE: return "done";
    case COSTORE_KEPT: return "kept";
    case COSTORE_IN_HAND: return "in-hand";
    case COSTORE_MOVED: return "moved";
    case COSTORE_CLOSED: return "closed";
    case COSTORE_BROKEN: return "broken";
    case COSTORE_BAD_NAME: return "bad-name";
    case COSTORE_TOO_LONG: return "too-long";
    case COSTORE_MISSING: return "missing";
    case COSTORE_FULL: return "full";
    case COSTORE_WORN: return "worn";
    case COSTORE_DISK: return "disk";
    case COSTORE_SHORT: return "short";
    case COSTORE_NO_MEMORY: return "memory";
    case COSTORE_TOO_MANY: return "too-many-names";
    case COSTORE_DAMAGED: return "damaged";
    case COSTORE_BUSY: return "busy";
    case COSTORE_IDLE: return "idle";
    case COSTORE_NO_STORE: return "not-a-store";
    case COSTORE_BAD_NUMBER: return "bad-number";
    case COSTORE_NOT_NEW: return "not-new";
    case COSTORE_LINE: return "request";
    case COSTORE_UNFIT: return "unfit";
    case COSTORE_NO_BATCH: return "no-batch";
    case COSTORE_PENDING: return "pending";
    case COSTORE_MORE_NAMES: return "more-names";
    case COSTORE_NO_ROOM: return "no-room";
    case COSTORE_SYSTEM: return "system";
    case COSTORE_LOCKED: return "locked";
    case COSTORE_NOT_A_FILE: return "not-a-file";
    case COSTORE_GONE: return "gone";
    default: return "other";
    }
}
