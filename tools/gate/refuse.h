/* What the libraries share that are loaded before a program to refuse it memory. They count the blocks that it has taken and
   not freed, but for what the C library takes and frees for a thread, and say on descriptor 9 what came of it. The file that
   includes this one has 'malloc' and 'realloc', which pass on what they take by 'taken', says which threads are refused, and
   has 'tell', which is called once when the program ends. */
#include <dlfcn.h>
#include <errno.h>
#include <pthread.h>
#include <stdatomic.h>
#include <stdio.h>
#include <stdlib.h>
#include <unistd.h>
static atomic_long blocks, started, joined;
static __thread int in_library;
static int refuses_thread(void);
static void tell(void);
/* without dprintf, which asks for memory itself */
static void say(const char *text, int length) {
    if (write(9, text, length) < 0) return;
}
/* says how many there are of something */
static void count(const char *what, long number) {
    char line[64];
    say(line, snprintf(line, sizeof line, "%s%ld\n", what, number));
}
static void *taken(void *block) {
    if (block && !in_library) blocks++;
    return block;
}
void free(void *block) {
    static void (*_Atomic real)(void *);
    if (!real) real = dlsym(RTLD_NEXT, "free");
    if (block && !in_library) blocks--;
    real(block);
}
int pthread_create(pthread_t *thread, const pthread_attr_t *how, void *(*run)(void *), void *given) {
    static int (*_Atomic real)(pthread_t *, const pthread_attr_t *, void *(*)(void *), void *);
    if (!real) real = dlsym(RTLD_NEXT, "pthread_create");
    if (refuses_thread()) return EAGAIN;
    in_library++;
    int answer = real(thread, how, run, given);
    in_library--;
    if (!answer) started++;
    return answer;
}
int pthread_join(pthread_t thread, void **result) {
    static int (*_Atomic real)(pthread_t, void **);
    if (!real) real = dlsym(RTLD_NEXT, "pthread_join");
    in_library++;
    int answer = real(thread, result);
    in_library--;
    if (!answer) joined++;
    return answer;
}
__attribute__((destructor)) static void end(void) {
    static atomic_flag told;
    if (!atomic_flag_test_and_set(&told)) tell();
}
/* a program with threads ends by this, without its destructors */
void _exit(int status) {
    void (*real)(int) = dlsym(RTLD_NEXT, "_exit");
    end();
    real(status);
    __builtin_unreachable();
}
