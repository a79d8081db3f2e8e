/* The proved core of photofleet, for a program in C or in a language that calls C. docs/EMBEDDING.md shows how it is used.

   What holds of every call:

   - What a call does and leaves is proved, but for the last two calls, for callers that keep the conditions told here and
     those of a session, which stand beside 'photofleet_session'. Nothing checks that they do. That memory was refused where
     a call says so, and that each block is given back, is tested and not proved.
   - A pointer is never null, also where the length beside it is 0, and points to as many bytes as that says. No two of
     the memories that a call is given overlap, and no other thread writes to what it reads or reads what it writes.
   - A call starts no thread, waits for nothing, reads no file and prints nothing. It takes memory by malloc and realloc
     and gives it back by free. These three are of one allocator, and a block of n bytes is aligned to each power of two up to
     16 that divides n, as the C library's is. photofleet_plain keeps no memory when it returns, and a session keeps what it
     has until it is closed.
   - It is not called from a signal handler, nor from the forked child of a process with threads. Calls may run at once in
     several threads, each over memory of its own. */
#ifndef PHOTOFLEET_H
#define PHOTOFLEET_H

#include <stdbool.h>
#include <stddef.h>
#include <stdint.h>

#ifdef __cplusplus
extern "C" {
#endif

/* The statuses. 0, 3 and 4 are also those with which the program 'photofleet' exits; by 2 and 5 it says other things. */
enum {
    PHOTOFLEET_DONE = 0,
    /* The session is closed and was to be open, or open and was to be closed. Nothing was done. */
    PHOTOFLEET_BAD_SESSION = 2,
    /* The bytes are no script, or memory was refused while they were read. */
    PHOTOFLEET_BAD_SCRIPT = 3,
    /* Memory was refused elsewhere. */
    PHOTOFLEET_NO_MEMORY = 4,
    /* The reports have no room in the caller's memory. */
    PHOTOFLEET_TOO_SMALL = 5,
};

/* Runs a script command by command, as 'photofleet plain' does, and puts the texts of its reports into 'out'.

   DONE: the first '*written' bytes of 'out' are the texts of the right reports on the script's commands, in their order.
   BAD_SCRIPT: the line in 'out' tells the first fault of the bytes, as 'script fault: line 2: F6 WrongFields', or, by
   'script fault: F18 NoMemory', that memory was refused while they were read.
   NO_MEMORY: the bytes are a script, and memory was refused for its run. The line is 'run error: E1 NoMemory'.
   TOO_SMALL: '*written' tells how many bytes the texts of the reports take, and 'out' is as it was.

   After BAD_SCRIPT and NO_MEMORY '*written' tells how many bytes the line takes, its LF among them: it stands at the front of
   'out' if that is not above 'out_length', and else 'out' is as it was. A line has at most 80 bytes.

   In each case the bytes of 'out' behind a text are as they were. No text ends with a byte of 0. */
uint8_t photofleet_plain(const uint8_t *script, size_t script_length, uint8_t *out, size_t out_length, size_t *written);

/* A session: lines that were given one after another, with what their run prints. It begins closed, as '= {0}'. No other
   program part reads or writes its fields, and it isn't copied while it is open: it is one owner of memory, and two copies would
   free that twice. A session is used by one call at a time; it belongs to no thread. */
typedef struct {
    void *at;
    bool is_open;
} photofleet_session;

/* Opens a session with lines that are a script by themselves, mostly declarations. An LF stands between two of them and not
   behind the last one: it would begin an empty line, which is counted.

   DONE: the session is open, '*written' is 0, and 'out' is as it was.
   BAD_SESSION: it was open already. '*written' is 0, and 'out' is as it was.
   BAD_SCRIPT, NO_MEMORY: the line in 'out' tells why, as above.
   After any status but DONE the session is as it was. */
uint8_t photofleet_open(photofleet_session *session, const uint8_t *lines, size_t lines_length, uint8_t *out, size_t out_length, size_t *written);

/* Gives a line to a session, without an LF at its end, and puts the text of its report into 'out'. The line is judged and run
   as one that stands behind all lines before it, so a fault names its number among these. An LF within it ends a line: then
   several are given at once, which are all taken or none. A line costs what its command costs. A change that is given with
   fewer than 128 bytes of room copies the fleet besides. Several lines at once cost as much as all lines, and so does the line
   after a change for which memory was refused.

   DONE: the first '*written' bytes of 'out' are what the run prints behind what it printed before; none of a declaration, of an
   empty line or of a remark.
   BAD_SESSION: it is closed. '*written' is 0, and 'out' is as it was.
   BAD_SCRIPT: the line in 'out' tells why the session's lines and this one are no script, as above.
   NO_MEMORY: the line in 'out' tells that, as above. The session's lines and this one are a script.
   TOO_SMALL: '*written' tells how many bytes the text takes, and 'out' is as it was.
   After any status but DONE the session is as it was: the line can be given again, or another one. */
uint8_t photofleet_give(photofleet_session *session, const uint8_t *line, size_t line_length, uint8_t *out, size_t out_length, size_t *written);

/* The same of a line that is not kept, such as 'list cam': what would be printed of it now. The session is as it was. A change
   that is asked copies the fleet. */
uint8_t photofleet_ask(photofleet_session *session, const uint8_t *line, size_t line_length, uint8_t *out, size_t out_length, size_t *written);

/* Closes a session, and gives back its memory. DONE: it was open. BAD_SESSION: it is closed already. A closed one can be opened
   again. */
uint8_t photofleet_close(photofleet_session *session);

/* The version of the library, such as "1.0.0". The text stands in the library, ends with a byte of 0, and is never freed. */
const char *photofleet_version(void);

/* What a status says, in a few words, such as "memory was refused"; of a number that is no status "unknown status", so it is
   never null. The text is as that of the version. Both calls are plain C, beside what is proved. */
const char *photofleet_status_text(uint8_t status);

#ifdef __cplusplus
}
#endif

#endif
