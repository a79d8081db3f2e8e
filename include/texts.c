/* What the library has beside the proved calls: two texts that stand in it. tools/build/build-c says which VERSION it is. */
#include <photofleet.h>

const char *photofleet_version(void) {
    return VERSION;
}

const char *photofleet_status_text(uint8_t status) {
    switch (status) {
    case PHOTOFLEET_DONE: return "done";
    case PHOTOFLEET_BAD_SESSION: return "the session is closed, or open where it was to be closed";
    case PHOTOFLEET_BAD_SCRIPT: return "no script, or memory was refused while it was read";
    case PHOTOFLEET_NO_MEMORY: return "memory was refused";
    case PHOTOFLEET_TOO_SMALL: return "no room for the text in the caller's memory";
    default: return "unknown status";
    }
}
