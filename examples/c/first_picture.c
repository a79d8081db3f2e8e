/* Prints the reports of the first picture's script, as 'photofleet plain examples/first-picture.script' does.

       gcc -I include examples/c/first_picture.c out/c/libphotofleet.a -o first_picture */
#include <photofleet.h>
#include <stdio.h>
#include <stdlib.h>
#include <string.h>

static const char script[] =
    "device cam all\n"
    "new cam 7 5 2024-05-01 sun,beach\n"
    "list cam\n";

int main(void) {
    const uint8_t *bytes = (const uint8_t *)script;
    uint8_t small[1];
    size_t written;
    /* How many bytes the reports take is told where they have no room. */
    int status = photofleet_plain(bytes, strlen(script), small, sizeof small, &written);
    if (status != PHOTOFLEET_TOO_SMALL) return status;
    uint8_t *out = malloc(written);
    if (!out) return PHOTOFLEET_NO_MEMORY;
    status = photofleet_plain(bytes, strlen(script), out, written, &written);
    fwrite(out, 1, written, status == PHOTOFLEET_DONE ? stdout : stderr);
    free(out);
    return status;
}
