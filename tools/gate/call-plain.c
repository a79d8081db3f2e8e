/* Calls photofleet_plain on a file, over memory that ends where nothing may be touched, and takes no memory by malloc itself.

       call-plain SCRIPT LENGTH      writes the text that stands in 'out', which has LENGTH bytes, and exits with the status
       call-plain SCRIPT each        calls with each length from 0 to that of the text, and says how many there were

   It exits with 99 where the call told one thing and did another: where bytes behind the text were touched, or any where the
   text has no room, or where it has room and isn't the one that is told where there is more. */
#define _GNU_SOURCE
#include <fcntl.h>
#include <photofleet.h>
#include <stdio.h>
#include <stdlib.h>
#include <string.h>
#include <sys/mman.h>
#include <sys/stat.h>
#include <unistd.h>

enum { FILLED = 0xa5, IN_FRONT = 64, WRONG = 99 };

/* so many bytes, behind which nothing may be touched */
static uint8_t *bytes_at_an_end(size_t length) {
    size_t page = sysconf(_SC_PAGESIZE), pages = (length + IN_FRONT + page - 1) / page;
    uint8_t *block = mmap(NULL, (pages + 1) * page, PROT_READ | PROT_WRITE, MAP_PRIVATE | MAP_ANONYMOUS, -1, 0);
    if (block == MAP_FAILED || mprotect(block + pages * page, page, PROT_NONE)) _exit(WRONG);
    return block + pages * page - length;
}

static int is_filled(const uint8_t *from, const uint8_t *to) {
    while (from < to)
        if (*from++ != FILLED) return 0;
    return 1;
}

static const uint8_t *script;
static size_t script_length;

/* the status of a call, whose text is 'whole' where that is known; WRONG where it touched what it may not */
static int call(uint8_t *out, size_t length, size_t *written, const uint8_t *whole) {
    memset(out - IN_FRONT, FILLED, length + IN_FRONT);
    *written = 0;
    int status = photofleet_plain(script, script_length, out, length, written);
    size_t text = *written <= length ? *written : 0;
    if (!is_filled(out - IN_FRONT, out) || !is_filled(out + text, out + length)) return WRONG;
    if ((status == PHOTOFLEET_TOO_SMALL || status == PHOTOFLEET_DONE) && (status == PHOTOFLEET_DONE) != (*written <= length)) return WRONG;
    if (whole && memcmp(out, whole, text)) return WRONG;
    return status;
}

static int call_with_each_length(void) {
    size_t all, written;
    int first = call(bytes_at_an_end(0), 0, &all, NULL);
    if (first == WRONG) return WRONG;
    uint8_t *whole = bytes_at_an_end(all), *out = bytes_at_an_end(all);
    int status = call(whole, all, &written, NULL);
    if (written != all || (status != first && first != PHOTOFLEET_TOO_SMALL)) return WRONG;
    for (size_t length = 0; length <= all; length++) {
        int wanted = length < all ? first : status;
        if (call(out + all - length, length, &written, whole) != wanted || written != all) return WRONG;
    }
    char line[64];
    int count = snprintf(line, sizeof line, "%zu lengths\n", all + 1);
    return write(1, line, count) == count ? 0 : WRONG;
}

int main(int count, char **words) {
    struct stat about;
    int file = count == 3 ? open(words[1], O_RDONLY) : -1;
    if (file < 0 || fstat(file, &about)) return WRONG;
    script_length = about.st_size;
    uint8_t *bytes = bytes_at_an_end(script_length);
    for (size_t done = 0; done < script_length;) {
        ssize_t piece = read(file, bytes + done, script_length - done);
        if (piece <= 0) return WRONG;
        done += piece;
    }
    script = bytes;
    if (!strcmp(words[2], "each")) return call_with_each_length();
    size_t length = strtoul(words[2], NULL, 10), written;
    uint8_t *out = bytes_at_an_end(length);
    int status = call(out, length, &written, NULL);
    if (written > length) return status;
    return write(1, out, written) == (ssize_t)written ? status : WRONG;
}
