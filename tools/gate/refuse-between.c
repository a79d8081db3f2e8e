/* Loaded before a program: counts the requests for memory that it makes between a request of exactly MARK bytes and the
   next such one, and refuses that of the number REFUSE. On descriptor 9 it tells of each mark and of the refusal, and at the
   end how many blocks were taken and not freed. */
#define _GNU_SOURCE
#include "refuse.h"
enum { MARK = 1000003 };
static atomic_long marks, seen;
static long wanted;
static void *(*real_malloc)(size_t);
static void *(*real_realloc)(void *, size_t);
static void find(void) {
    real_malloc = dlsym(RTLD_NEXT, "malloc");
    real_realloc = dlsym(RTLD_NEXT, "realloc");
}
static int refuses(size_t size) {
    if (size == MARK) { atomic_fetch_add(&marks, 1); say("mark\n", 5); return 0; }
    if (atomic_load(&marks) % 2 == 0) return 0;
    if (atomic_fetch_add(&seen, 1) + 1 != wanted) return 0;
    say("refused\n", 8);
    return 1;
}
static int refuses_thread(void) {
    return 0;
}
void *malloc(size_t size) {
    if (!real_malloc) find();
    return refuses(size) ? NULL : taken(real_malloc(size));
}
void *realloc(void *block, size_t size) {
    if (!real_realloc) find();
    if (refuses(size)) return NULL;
    return block ? real_realloc(block, size) : taken(real_realloc(block, size));
}
__attribute__((constructor)) static void begin(void) {
    const char *number = getenv("REFUSE");
    wanted = number ? atol(number) : 0;
}
static void tell(void) {
    count("blocks ", blocks);
}
