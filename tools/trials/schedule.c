/* Stands in for the runtime of ThreadSanitizer, and lets one thread of the program run at a time:
   at each atomic step, wait, wake, yield, start and join the next one is chosen by the number SEED.
   Where nobody can go on the program ends with status 77, after too many choices with 78. Of a
   thousand wakes LOSE are lost, which has to be seen. Without SEED all run as the system has it. */
#define _GNU_SOURCE
#include <dlfcn.h>
#include <errno.h>
#include <linux/futex.h>
#include <pthread.h>
#include <stdarg.h>
#include <stdint.h>
#include <stdio.h>
#include <stdlib.h>
#include <string.h>
#include <sys/syscall.h>
#include <time.h>
#include <unistd.h>

enum { DEADLOCK = 77, ENDLESS = 78, THREADS = 1024, CHOICES = 40000000 };

/* A thread can run, waits at a futex or for the end of another, or has ended. */
enum state { RUNS, WAITS, JOINS, ENDED };

struct thread {
    enum state state;
    pthread_cond_t turn;
    pthread_t id;
    void *(*body)(void *);
    void *argument;
    const void *futex; /* at which it waits */
    int timed;         /* whether that wait ends by itself */
    int awaited;       /* the thread for whose end it waits */
    long stalled;      /* for so many choices it is chosen only where nobody else can be */
    int yields;        /* it is chosen after those that don't yield */
    int joined;
};

static struct thread threads[THREADS];
static int count = 1; /* of threads; the first is the one that main runs in */
static int running;   /* the number of the one that runs */
static __thread int me = -1;
static pthread_mutex_t lock = PTHREAD_MUTEX_INITIALIZER;
static uint64_t random_state;
static long choices;
/* Of a thousand: how often another thread is chosen, one is stalled, a wait ends with no wake, and
   a wake is lost. */
static int moves, stalls, spurious, lost;
static int (*next_create)(pthread_t *, const pthread_attr_t *, void *(*)(void *), void *);
static int (*next_join)(pthread_t, void **);
static int (*next_yield)(void);
static long (*next_syscall)(long, ...);

static uint64_t draw(uint64_t below) {
    random_state ^= random_state << 13;
    random_state ^= random_state >> 7;
    random_state ^= random_state << 17;
    return (random_state * 2685821657736338717ULL >> 16) % below;
}

static int chance(int of_thousand) {
    return (int)draw(1000) < of_thousand;
}

__attribute__((constructor)) static void start(void) {
    static const int how_often[] = {1000, 700, 300, 100, 30, 10};
    static const int how_stalled[] = {0, 1, 3, 10, 30};
    static const int how_spurious[] = {0, 0, 0, 50};
    next_create = dlsym(RTLD_NEXT, "pthread_create");
    next_join = dlsym(RTLD_NEXT, "pthread_join");
    next_yield = dlsym(RTLD_NEXT, "sched_yield");
    next_syscall = dlsym(RTLD_NEXT, "syscall");
    const char *seed = getenv("SEED");
    if (!seed)
        return;
    random_state = 88172645463325252ULL ^ strtoull(seed, 0, 10) * 0x9E3779B97F4A7C15ULL;
    random_state += !random_state;
    for (int i = 0; i < 10; i++)
        draw(1);
    moves = how_often[draw(6)];
    stalls = how_stalled[draw(5)];
    spurious = how_spurious[draw(4)];
    const char *word = getenv("LOSE");
    lost = word ? atoi(word) : 0;
    me = 0;
    pthread_cond_init(&threads[0].turn, 0);
    threads[0].id = pthread_self();
}

static void end(const char *what, int status) {
    static const char *const names[] = {"runs", "waits", "joins", "ended"};
    fprintf(stderr, "%s after %ld choices; the threads:", what, choices);
    for (int i = 0; i < count; i++)
        fprintf(stderr, " %s", names[threads[i].state]);
    fprintf(stderr, "\n");
    _exit(status);
}

/* A wait with an end in time ends where nobody can run. */
static int end_of_a_wait(void) {
    for (int i = 0; i < count; i++)
        if (threads[i].state == WAITS && threads[i].timed) {
            threads[i].state = RUNS;
            return i;
        }
    end("deadlock", DEADLOCK);
    return 0;
}

/* Those of these threads that aren't stalled, and, where it is asked so, don't yield. */
static int awake_ones(const int *from, int many, int also_yielding, int *to) {
    int found = 0;
    for (int i = 0; i < many; i++)
        if (threads[from[i]].stalled <= 0 && (also_yielding || !threads[from[i]].yields))
            to[found++] = from[i];
    return found;
}

/* The thread that runs next. */
static int choose(void) {
    int can[THREADS], may[THREADS], many = 0, found;
    if (++choices > CHOICES)
        end("no end", ENDLESS);
    for (int i = 0; i < count; i++)
        if (threads[i].state == RUNS) {
            if (threads[i].stalled > 0 && i != me)
                threads[i].stalled--;
            can[many++] = i;
        }
    if (!many)
        return end_of_a_wait();
    found = awake_ones(can, many, 0, may);
    if (!found) {
        for (int i = 0; i < many; i++)
            threads[can[i]].yields = 0;
        found = awake_ones(can, many, 1, may);
    }
    return found ? may[draw(found)] : can[draw(many)];
}

/* Lets another thread run until it is this one's turn again. Under the lock. */
static void let_run(int next) {
    if (next == me)
        return;
    running = next;
    pthread_cond_signal(&threads[next].turn);
    while (running != me)
        pthread_cond_wait(&threads[me].turn, &lock);
}

/* A place where another thread may be the next. */
static void pass(int yields) {
    if (me < 0)
        return;
    pthread_mutex_lock(&lock);
    threads[me].yields = yields;
    if (stalls && chance(stalls)) {
        threads[me].stalled = 1 + (long)draw(1ULL << (4 + draw(12)));
        let_run(choose());
    } else if (yields || chance(moves) || threads[me].stalled > 0) {
        let_run(choose());
    }
    threads[me].yields = 0;
    pthread_mutex_unlock(&lock);
}

static void *run(void *given) {
    struct thread *own = given;
    me = (int)(own - threads);
    pthread_mutex_lock(&lock);
    while (running != me)
        pthread_cond_wait(&own->turn, &lock);
    pthread_mutex_unlock(&lock);
    void *left = own->body(own->argument);
    pthread_mutex_lock(&lock);
    own->state = ENDED;
    for (int i = 0; i < count; i++)
        if (threads[i].state == JOINS && threads[i].awaited == me)
            threads[i].state = RUNS;
    running = choose();
    pthread_cond_signal(&threads[running].turn);
    pthread_mutex_unlock(&lock);
    return left;
}

int pthread_create(pthread_t *id, const pthread_attr_t *how, void *(*body)(void *),
                   void *argument) {
    if (me < 0)
        return next_create(id, how, body, argument);
    pass(0);
    pthread_mutex_lock(&lock);
    if (count == THREADS)
        end("too many threads", ENDLESS);
    struct thread *made = &threads[count++];
    pthread_cond_init(&made->turn, 0);
    made->body = body;
    made->argument = argument;
    made->state = RUNS;
    int fault = next_create(id, how, run, made);
    if (fault)
        made->state = ENDED;
    else
        made->id = *id;
    pthread_mutex_unlock(&lock);
    pass(0);
    return fault;
}

int pthread_join(pthread_t id, void **left) {
    if (me < 0)
        return next_join(id, left);
    pass(0);
    pthread_mutex_lock(&lock);
    for (int i = 1; i < count; i++)
        if (!threads[i].joined && pthread_equal(threads[i].id, id)) {
            if (threads[i].state != ENDED) {
                threads[me].state = JOINS;
                threads[me].awaited = i;
                let_run(choose());
            }
            threads[i].joined = 1;
            break;
        }
    pthread_mutex_unlock(&lock);
    return next_join(id, left);
}

int sched_yield(void) {
    if (me < 0)
        return next_yield();
    pass(1);
    return 0;
}

static long wait_at(const uint32_t *futex, uint32_t value, const struct timespec *until) {
    pass(0);
    if (__atomic_load_n(futex, __ATOMIC_SEQ_CST) != value) {
        errno = EAGAIN;
        return -1;
    }
    if (spurious && chance(spurious)) {
        pass(1);
        return 0;
    }
    pthread_mutex_lock(&lock);
    threads[me].state = WAITS;
    threads[me].futex = futex;
    threads[me].timed = until != 0 && until->tv_sec < 1000000;
    let_run(choose());
    pthread_mutex_unlock(&lock);
    return 0;
}

static long wake_at(const uint32_t *futex, long most) {
    int waiting[THREADS], many = 0;
    long woken = 0;
    pass(0);
    pthread_mutex_lock(&lock);
    if (!lost || !chance(lost)) {
        for (int i = 0; i < count; i++)
            if (threads[i].state == WAITS && threads[i].futex == futex)
                waiting[many++] = i;
        for (; woken < most && many > 0; woken++) {
            int one = (int)draw(many);
            threads[waiting[one]].state = RUNS;
            waiting[one] = waiting[--many];
        }
    }
    pthread_mutex_unlock(&lock);
    pass(0);
    return woken;
}

long syscall(long number, ...) {
    va_list words;
    long word[6];
    va_start(words, number);
    for (int i = 0; i < 6; i++)
        word[i] = va_arg(words, long);
    va_end(words);
    if (number == SYS_futex && me >= 0) {
        int call = (int)word[1] & FUTEX_CMD_MASK;
        if (call == FUTEX_WAIT || call == FUTEX_WAIT_BITSET)
            return wait_at((const uint32_t *)word[0], (uint32_t)word[2],
                           (const struct timespec *)word[3]);
        if (call == FUTEX_WAKE || call == FUTEX_WAKE_BITSET)
            return wake_at((const uint32_t *)word[0], word[2]);
    }
    return next_syscall(number, word[0], word[1], word[2], word[3], word[4], word[5]);
}

/* What a program calls that is compiled for ThreadSanitizer: plain reads and writes do nothing. */
#define AT(name) void __tsan_##name(void *at) { (void)at; }
#define SIZES(name) AT(name##2) AT(name##4) AT(name##8) AT(name##16)
AT(read1) SIZES(read) SIZES(unaligned_read)
AT(write1) SIZES(write) SIZES(unaligned_write)
AT(read_write1) SIZES(read_write) SIZES(unaligned_read_write)
AT(func_entry)
void __tsan_func_exit(void) {}
void __tsan_init(void) {}

void *__tsan_memcpy(void *to, const void *from, size_t size) {
    return memcpy(to, from, size);
}

void *__tsan_memmove(void *to, const void *from, size_t size) {
    return memmove(to, from, size);
}

void *__tsan_memset(void *to, int byte, size_t size) {
    return memset(to, byte, size);
}

/* Before each atomic step another thread may run. The step's order is the strongest one. */
#define CHANGE(u, step, how) \
    u __tsan_##step(volatile u *at, u value, int order) { \
        (void)order; \
        pass(0); \
        return how(at, value, __ATOMIC_SEQ_CST); \
    }
#define ATOMICS(u, atomic) \
    u __tsan_##atomic##_load(const volatile u *at, int order) { \
        (void)order; \
        pass(0); \
        return __atomic_load_n(at, __ATOMIC_SEQ_CST); \
    } \
    void __tsan_##atomic##_store(volatile u *at, u value, int order) { \
        (void)order; \
        pass(0); \
        __atomic_store_n(at, value, __ATOMIC_SEQ_CST); \
    } \
    u __tsan_##atomic##_compare_exchange_val(volatile u *at, u expected, u value, int order, \
                                             int otherwise) { \
        (void)order, (void)otherwise; \
        pass(0); \
        __atomic_compare_exchange_n(at, &expected, value, 0, __ATOMIC_SEQ_CST, __ATOMIC_SEQ_CST); \
        return expected; \
    } \
    CHANGE(u, atomic##_exchange, __atomic_exchange_n) \
    CHANGE(u, atomic##_fetch_add, __atomic_fetch_add) \
    CHANGE(u, atomic##_fetch_sub, __atomic_fetch_sub) \
    CHANGE(u, atomic##_fetch_and, __atomic_fetch_and) \
    CHANGE(u, atomic##_fetch_or, __atomic_fetch_or)
ATOMICS(uint8_t, atomic8)
ATOMICS(uint16_t, atomic16)
ATOMICS(uint32_t, atomic32)
ATOMICS(uint64_t, atomic64)

void __tsan_atomic_thread_fence(int order) {
    (void)order;
    pass(0);
    __atomic_thread_fence(__ATOMIC_SEQ_CST);
}
