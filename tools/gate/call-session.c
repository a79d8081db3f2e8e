/* Gives a script to a session line by line, and writes what it tells. It takes no memory by malloc itself. It is linked with
   '-Wl,--wrap=malloc,--wrap=realloc', so that it counts what the library asks for.

       call-session SCRIPT      its device lines open the session, and each further line is given to it, the first two of
                                them at once. Where memory was refused the call is made again, so what is written is what
                                the program prints of the script

   Each call is given an 'out' that ends where nothing may be touched, filled with a byte that no text has. It exits with 99
   where a call did another thing than include/photofleet.h says: where a byte is touched behind a text or before 'out', or
   any at all where nothing is told or what is told has no room; where a closed session is used or closed again, or an open
   one opened; where a line is refused that was taken before, a report told in too little room, or an answer changed by
   asking; where a fault of several lines at once isn't told as that fault; where closing asks for memory. */
#define _GNU_SOURCE
#include <fcntl.h>
#include <photofleet.h>
#include <stdlib.h>
#include <string.h>
#include <sys/mman.h>
#include <unistd.h>

enum { WRONG = 99, ROOM = 1 << 20, IN_FRONT = 64, FILLED = 0xa5, PAGE = 1 << 16 };

typedef uint8_t call_with_bytes(photofleet_session *, const uint8_t *, size_t, uint8_t *, size_t, size_t *);

static uint8_t script[ROOM], told[ROOM];
static uint8_t *end_of_out;
static photofleet_session session;
static size_t written;
static long asked_for;

void *__real_malloc(size_t);
void *__real_realloc(void *, size_t);
void *__wrap_malloc(size_t);
void *__wrap_realloc(void *, size_t);

void *__wrap_malloc(size_t size) {
    asked_for++;
    return __real_malloc(size);
}

void *__wrap_realloc(void *block, size_t size) {
    asked_for++;
    return __real_realloc(block, size);
}

static int is_filled(const uint8_t *from, const uint8_t *to) {
    while (from < to)
        if (*from++ != FILLED) return 0;
    return 1;
}

/* whether memory was refused, as the status and the line say; the line is looked at where it has room */
static int is_want(int status, const uint8_t *line) {
    static const char lines[2][30] = {"script fault: F18 NoMemory\n", "run error: E1 NoMemory\n"};
    const char *wanted = lines[status == PHOTOFLEET_NO_MEMORY];
    return (status == PHOTOFLEET_BAD_SCRIPT || status == PHOTOFLEET_NO_MEMORY) && written == strlen(wanted)
        && (!line || !memcmp(line, wanted, written));
}

/* makes a call with so much room, and makes it once more where memory was refused: that is done once at most */
static int make(call_with_bytes *call, const uint8_t *bytes, size_t length, size_t room) {
    static int refused;
    uint8_t *out = end_of_out - room;
    for (;;) {
        memset(out - IN_FRONT, FILLED, room + IN_FRONT);
        written = ROOM + 7;
        photofleet_session before = session;
        int status = call(&session, bytes, length, out, room, &written);
        size_t text = status != PHOTOFLEET_TOO_SMALL && written <= room ? written : 0;
        if (!is_filled(out - IN_FRONT, out) || !is_filled(out + text, end_of_out)) return WRONG;
        if (status != PHOTOFLEET_DONE && (before.at != session.at || before.is_open != session.is_open)) return WRONG;
        if ((status == PHOTOFLEET_TOO_SMALL || status == PHOTOFLEET_DONE) && (status == PHOTOFLEET_DONE) != (written <= room)) return WRONG;
        if (status == PHOTOFLEET_BAD_SESSION && written != 0) return WRONG;
        memcpy(told, out, text);
        if (!is_want(status, text ? out : NULL)) return status == PHOTOFLEET_NO_MEMORY ? WRONG : status;
        if (!getenv("REFUSE") || refused++) return WRONG;
    }
}

/* a line is asked, then given to too little room, of several sizes where no memory is refused, and then given */
static int give(const uint8_t *line, size_t length) {
    static uint8_t asked[ROOM];
    if (make(photofleet_ask, line, length, ROOM) != PHOTOFLEET_DONE) return WRONG;
    size_t all = written;
    memcpy(asked, told, all);
    for (size_t room = 0; room < all; room = getenv("REFUSE") ? all : 2 * room + 1)
        if (make(photofleet_give, line, length, room) != PHOTOFLEET_TOO_SMALL || written != all
            || make(photofleet_ask, line, length, room) != PHOTOFLEET_TOO_SMALL || written != all) return WRONG;
    if (make(photofleet_give, line, length, all) != PHOTOFLEET_DONE || written != all || memcmp(told, asked, all)) return WRONG;
    return write(1, told, all) == (ssize_t)all ? 0 : WRONG;
}

/* asks and gives lines with an LF between them that have a fault, of which the line ends so: none of them is taken */
static int refuse(const uint8_t *lines, size_t length, const char *fault) {
    call_with_bytes *const calls[] = {photofleet_ask, photofleet_give};
    size_t end = strlen(fault);
    for (int place = 0; place < 2; place++)
        if (make(calls[place], lines, length, ROOM) != PHOTOFLEET_BAD_SCRIPT || written < end || memcmp(told + written - end, fault, end)) return WRONG;
    return 0;
}

int main(int count, char **words) {
    int file = count == 2 ? open(words[1], O_RDONLY) : -1;
    ssize_t size = file < 0 ? -1 : read(file, script, ROOM);
    uint8_t *block = mmap(NULL, ROOM + 2 * PAGE, PROT_READ | PROT_WRITE, MAP_PRIVATE | MAP_ANONYMOUS, -1, 0);
    if (size < 0 || block == MAP_FAILED || mprotect(block + ROOM + PAGE, PAGE, PROT_NONE)) return WRONG;
    end_of_out = block + ROOM + PAGE;
    const uint8_t *end = script + size, *line = script;
    while (end - line > 7 && !memcmp(line, "device ", 7)) {
        const uint8_t *next = memchr(line, '\n', end - line);
        line = next ? next + 1 : end;
    }
    const uint8_t unknown[] = "list nobody", *from = line;
    size_t opening = line > script ? line - script - 1 : 0;
    if (photofleet_close(&session) != PHOTOFLEET_BAD_SESSION || make(photofleet_give, unknown, 11, ROOM) != PHOTOFLEET_BAD_SESSION
        || make(photofleet_ask, unknown, 11, ROOM) != PHOTOFLEET_BAD_SESSION || make(photofleet_open, unknown, 11, ROOM) != PHOTOFLEET_BAD_SCRIPT
        || make(photofleet_open, unknown, 11, 20) != PHOTOFLEET_BAD_SCRIPT) return WRONG;
    if (make(photofleet_open, script, opening, ROOM) != PHOTOFLEET_DONE || written != 0
        || make(photofleet_open, script, opening, ROOM) != PHOTOFLEET_BAD_SESSION) return WRONG;
    for (int is_first = 1; from < end; is_first = 0) {
        const uint8_t *next = memchr(from, '\n', end - from);
        if (is_first && next && next + 1 < end) next = memchr(next + 1, '\n', end - next - 1);
        if (!next) next = end;
        if (give(from, next - from)) return WRONG;
        from = next + 1;
    }
    if (make(photofleet_give, unknown, 11, ROOM) != PHOTOFLEET_BAD_SCRIPT || make(photofleet_ask, unknown, 11, 20) != PHOTOFLEET_BAD_SCRIPT) return WRONG;
    static uint8_t large[(1 << 23) + 1] = "\n";
    const uint8_t faulty[] = "# one\nlist nobody", odd[] = "# one\n\xff", remarks[] = "# one\n# two";
    if (refuse(faulty, 17, ": F8 UnknownDevice\n") || refuse(odd, 7, "script fault: F3 NotUtf8\n")
        || refuse(large, sizeof large, "script fault: F2 TooLarge\n")) return WRONG;
    if (make(photofleet_ask, remarks, 11, ROOM) != PHOTOFLEET_DONE || written != 0
        || make(photofleet_give, remarks, 11, ROOM) != PHOTOFLEET_DONE || written != 0) return WRONG;
    long before = asked_for;
    if (photofleet_close(&session) != PHOTOFLEET_DONE || photofleet_close(&session) != PHOTOFLEET_BAD_SESSION || asked_for != before) return WRONG;
    return 0;
}
