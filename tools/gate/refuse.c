/* Loaded before a program, of whose threads any may ask: refuses its allocation of the number REFUSE, or the thread of the
   number REFUSE_THREAD, and says so on descriptor 9. At the end it says there how many threads were started and how many of
   them were joined, how many blocks were taken and not freed, and then how many allocations were asked for. */
#define _GNU_SOURCE
#include "refuse.h"
static atomic_long allocations, threads;
/* counts one more, and says whether it is the one of the number that this variable of the environment has */
static int is_refused(atomic_long *seen, const char *variable) {
    const char *wanted = getenv(variable);
    long number = atomic_fetch_add(seen, 1) + 1;
    if (!wanted || atol(wanted) != number) return 0;
    say("refused\n", 8);
    return 1;
}
static int refuses_thread(void) {
    return is_refused(&threads, "REFUSE_THREAD");
}
void *malloc(size_t size) {
    static void *(*_Atomic real)(size_t);
    if (!real) real = dlsym(RTLD_NEXT, "malloc");
    return is_refused(&allocations, "REFUSE") ? NULL : taken(real(size));
}
void *realloc(void *block, size_t size) {
    static void *(*_Atomic real)(void *, size_t);
    if (!real) real = dlsym(RTLD_NEXT, "realloc");
    if (is_refused(&allocations, "REFUSE")) return NULL;
    return block ? real(block, size) : taken(real(block, size));
}
static void tell(void) {
    count("started ", started);
    count("joined ", joined);
    count("blocks ", blocks);
    count("", allocations);
}
