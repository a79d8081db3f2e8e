/* Runs scripts in four threads at once, each over memory of its own: each thread gives each script, beginning with another one,
   to a session line by line, and calls photofleet_plain with the whole of it.

       call-threads SCRIPT ..      each beside what the program prints of it, SCRIPT with 'expected' in place of 'script'

   It exits with 99 where a thread was told another thing. */
#include <photofleet.h>
#include <pthread.h>
#include <stdio.h>
#include <stdlib.h>
#include <string.h>

enum { WRONG = 99, THREADS = 4, MANY = 64, ROOM = 1 << 17 };

typedef struct {
    uint8_t bytes[ROOM];
    size_t length;
} text;

static text scripts[MANY], expected[MANY];
static int count;

static int is_read(text *into, const char *path) {
    FILE *file = fopen(path, "rb");
    if (!file) return 0;
    into->length = fread(into->bytes, 1, ROOM, file);
    return !fclose(file) && into->length < ROOM;
}

/* whether a session tells of a script's lines what is expected, one after another */
static int by_lines(const text *script, const text *wanted, uint8_t *out) {
    photofleet_session session = {0};
    size_t told = 0, written;
    if (photofleet_open(&session, script->bytes, 0, out, ROOM, &written) != PHOTOFLEET_DONE) return 0;
    for (const uint8_t *line = script->bytes, *end = line + script->length; line < end;) {
        const uint8_t *next = memchr(line, '\n', end - line);
        if (!next) next = end;
        if (photofleet_give(&session, line, next - line, out, ROOM, &written) != PHOTOFLEET_DONE) return 0;
        if (told + written > wanted->length || memcmp(wanted->bytes + told, out, written)) return 0;
        told += written;
        line = next + 1;
    }
    return photofleet_close(&session) == PHOTOFLEET_DONE && told == wanted->length;
}

static int at_once(const text *script, const text *wanted, uint8_t *out) {
    size_t written;
    return photofleet_plain(script->bytes, script->length, out, ROOM, &written) == PHOTOFLEET_DONE
        && written == wanted->length && !memcmp(wanted->bytes, out, written);
}

static void *run(void *first) {
    uint8_t *out = malloc(ROOM);
    int holds = out != NULL;
    for (int i = 0; holds && i < count; i++) {
        int at = (*(int *)first + i) % count;
        holds = by_lines(&scripts[at], &expected[at], out) && at_once(&scripts[at], &expected[at], out);
    }
    free(out);
    return holds ? first : NULL;
}

int main(int words, char **word) {
    pthread_t threads[THREADS];
    int first[THREADS], holds = words > 1 && words <= MANY;
    for (; holds && count + 1 < words; count++) {
        char path[4096];
        int stem = (int)strlen(word[count + 1]) - 6;
        holds = stem > 0 && snprintf(path, sizeof path, "%.*sexpected", stem, word[count + 1]) < (int)sizeof path
            && is_read(&scripts[count], word[count + 1]) && is_read(&expected[count], path);
    }
    if (!holds) return WRONG;
    for (int i = 0; i < THREADS; i++) {
        first[i] = i;
        if (pthread_create(&threads[i], NULL, run, &first[i])) return WRONG;
    }
    for (int i = 0; i < THREADS; i++) {
        void *answer;
        if (pthread_join(threads[i], &answer) || !answer) holds = 0;
    }
    return holds ? 0 : WRONG;
}
