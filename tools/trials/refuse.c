/* Refuses one allocation of a program, that of the number REFUSE, and writes into the file COUNT_TO
   how many it has made. */
#define _GNU_SOURCE
#include <dlfcn.h>
#include <errno.h>
#include <stdio.h>
#include <stdlib.h>
#include <sys/syscall.h>
#include <unistd.h>

static long count, refused = -1;
static enum { OUT, STARTING, ON } state;
static void *(*next_malloc)(size_t);
static void *(*next_realloc)(void *, size_t);
static void *(*next_calloc)(size_t, size_t);
static void *(*next_aligned)(size_t, size_t);
static int (*next_memalign)(void **, size_t, size_t);

static void start(void) {
    if (state != OUT)
        return;
    state = STARTING;
    const char *word = getenv("REFUSE");
    if (word)
        refused = atol(word);
    next_malloc = dlsym(RTLD_NEXT, "malloc");
    next_realloc = dlsym(RTLD_NEXT, "realloc");
    next_calloc = dlsym(RTLD_NEXT, "calloc");
    next_aligned = dlsym(RTLD_NEXT, "aligned_alloc");
    next_memalign = dlsym(RTLD_NEXT, "posix_memalign");
    state = ON;
}

/* Whether this allocation is the one that is refused. */
static int refuses(void) {
    if (__atomic_add_fetch(&count, 1, __ATOMIC_SEQ_CST) != refused)
        return 0;
    errno = ENOMEM;
    return 1;
}

/* Memory for what is asked while the next functions are looked for. */
static void *early(size_t size) {
    static char first[1 << 16];
    static size_t used;
    void *at = first + used;
    used += (size + 15) & ~(size_t)15;
    return used <= sizeof first ? at : 0;
}

void *malloc(size_t size) {
    start();
    if (state != ON)
        return early(size);
    return refuses() ? 0 : next_malloc(size);
}

void *calloc(size_t many, size_t size) {
    start();
    if (state != ON)
        return early(many * size);
    return refuses() ? 0 : next_calloc(many, size);
}

void *realloc(void *old, size_t size) {
    start();
    return refuses() ? 0 : next_realloc(old, size);
}

void *aligned_alloc(size_t align, size_t size) {
    start();
    return refuses() ? 0 : next_aligned(align, size);
}

int posix_memalign(void **to, size_t align, size_t size) {
    start();
    return refuses() ? ENOMEM : next_memalign(to, align, size);
}

__attribute__((destructor)) static void tell(void) {
    const char *path = getenv("COUNT_TO");
    FILE *file = path ? fopen(path, "w") : 0;
    if (!file)
        return;
    fprintf(file, "%ld\n", count);
    fclose(file);
}

void _exit(int status) {
    tell();
    syscall(SYS_exit_group, status);
    __builtin_unreachable();
}
