/* Refuses threads of a program: that of the number REFUSE, or all from the number REFUSE_FROM on; the
   first has the number 0. Writes into the file COUNT_TO how many were asked for. */
#define _GNU_SOURCE
#include <dlfcn.h>
#include <errno.h>
#include <pthread.h>
#include <stdio.h>
#include <stdlib.h>
#include <sys/syscall.h>
#include <unistd.h>

static long count;

static long number(const char *name) {
    const char *word = getenv(name);
    return word ? atol(word) : -1;
}

int pthread_create(pthread_t *thread, const pthread_attr_t *with, void *(*call)(void *),
                   void *given) {
    int (*next)(pthread_t *, const pthread_attr_t *, void *(*)(void *), void *) =
        dlsym(RTLD_NEXT, "pthread_create");
    long place = __atomic_fetch_add(&count, 1, __ATOMIC_SEQ_CST), from = number("REFUSE_FROM");
    if (place == number("REFUSE") || (from >= 0 && place >= from))
        return EAGAIN;
    return next(thread, with, call, given);
}

void _exit(int status) {
    const char *path = getenv("COUNT_TO");
    FILE *file = path ? fopen(path, "w") : 0;
    if (file) {
        fprintf(file, "%ld\n", count);
        fclose(file);
    }
    syscall(SYS_exit_group, status);
    __builtin_unreachable();
}
