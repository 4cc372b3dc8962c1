/* Kills a program before its writing event of the number KILL_AT: where it opens a file to write it,
   writes, waits until all is on the disk, renames, removes or closes such a file. With HALF=1 half of
   what was to be written is written first. Without KILL_AT the number of events is written into the
   file COUNT_TO. */
#define _GNU_SOURCE
#include <dlfcn.h>
#include <fcntl.h>
#include <signal.h>
#include <stdarg.h>
#include <stdio.h>
#include <stdlib.h>
#include <sys/syscall.h>
#include <unistd.h>

#define FILES 1024

static long count;
static char written[FILES];

static void *next(const char *name) { return dlsym(RTLD_NEXT, name); }

static long number(const char *name) {
    const char *word = getenv(name);
    return word ? atol(word) : 0;
}

/* Whether this event is the one before which the program is killed. */
static int is_last(void) {
    return __atomic_add_fetch(&count, 1, __ATOMIC_SEQ_CST) == number("KILL_AT");
}

static void event(void) {
    if (is_last())
        raise(SIGKILL);
}

static int is_written(int file) { return file >= 0 && file < FILES && written[file]; }

static void opened(int file, int how) {
    if (file >= 0 && file < FILES)
        written[file] = (how & O_ACCMODE) != O_RDONLY;
}

int open(const char *path, int how, ...) {
    va_list more;
    va_start(more, how);
    int mode = va_arg(more, int);
    va_end(more);
    if ((how & O_ACCMODE) != O_RDONLY)
        event();
    int file = ((int (*)(const char *, int, ...))next("open"))(path, how, mode);
    opened(file, how);
    return file;
}

ssize_t write(int file, const void *bytes, size_t size) {
    ssize_t (*put)(int, const void *, size_t) = next("write");
    if (is_written(file) && is_last()) {
        if (number("HALF"))
            put(file, bytes, size / 2);
        raise(SIGKILL);
    }
    return put(file, bytes, size);
}

int close(int file) {
    if (is_written(file))
        event();
    opened(file, O_RDONLY);
    return ((int (*)(int))next("close"))(file);
}

int fsync(int file) {
    event();
    return ((int (*)(int))next("fsync"))(file);
}

int rename(const char *from, const char *to) {
    event();
    return ((int (*)(const char *, const char *))next("rename"))(from, to);
}

int unlink(const char *path) {
    event();
    return ((int (*)(const char *))next("unlink"))(path);
}

long syscall(long call, ...) {
    va_list more;
    va_start(more, call);
    long a = va_arg(more, long), b = va_arg(more, long), c = va_arg(more, long);
    long d = va_arg(more, long), e = va_arg(more, long), f = va_arg(more, long);
    va_end(more);
    if (call == SYS_fsync || call == SYS_rename || call == SYS_renameat || call == SYS_renameat2 ||
        call == SYS_unlink || call == SYS_unlinkat)
        event();
    return ((long (*)(long, ...))next("syscall"))(call, a, b, c, d, e, f);
}

void _exit(int status) {
    const char *path = getenv("COUNT_TO");
    FILE *file = path ? fopen(path, "w") : 0;
    if (file) {
        fprintf(file, "%ld\n", count);
        fflush(file);
    }
    ((void (*)(int))next("_exit"))(status);
    __builtin_unreachable();
}
