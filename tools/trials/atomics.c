/* Stands between a program and the atomic steps of ThreadSanitizer. With RELAXED the steps order
   nothing, so that what they order has to be reported as a race. With DELAYS a thread sleeps before
   and after so many of a thousand steps, up to LONGEST microseconds, as the number SEED has it. */
#define _GNU_SOURCE
#include <stdint.h>
#include <stdlib.h>
#include <sys/syscall.h>
#include <time.h>
#include <unistd.h>

static int is_relaxed, delays, longest = 200;
static uint64_t seed = 1;
static __thread uint64_t random_state;

static uint64_t number_of(const char *name, uint64_t otherwise) {
    const char *word = getenv(name);
    return word ? strtoull(word, 0, 10) : otherwise;
}

__attribute__((constructor)) static void start(void) {
    is_relaxed = getenv("RELAXED") != 0;
    delays = (int)number_of("DELAYS", 0);
    longest = (int)number_of("LONGEST", longest);
    seed = number_of("SEED", seed);
}

static uint64_t draw(uint64_t below) {
    if (!random_state)
        random_state = (seed * 0x9E3779B97F4A7C15ULL
                        ^ (uint64_t)syscall(SYS_gettid) * 0xBF58476D1CE4E5B9ULL) | 1;
    random_state ^= random_state << 13;
    random_state ^= random_state >> 7;
    random_state ^= random_state << 17;
    return (random_state * 2685821657736338717ULL >> 20) % below;
}

static void delay(void) {
    if (delays && (int)draw(1000) < delays) {
        struct timespec sleep = {0, (long)draw(longest + 1) * 1000};
        nanosleep(&sleep, 0);
    }
}

static int order_of(int asked) {
    return is_relaxed ? __ATOMIC_RELAXED : asked;
}

/* Each step of so many bits, `__wrap_` being what the program calls in its place. */
#define CHANGE(u, step) \
    u __real___tsan_##step(volatile u *at, u value, int order); \
    u __wrap___tsan_##step(volatile u *at, u value, int order) { \
        delay(); \
        u found = __real___tsan_##step(at, value, order_of(order)); \
        delay(); \
        return found; \
    }
#define ATOMICS(u, atomic) \
    u __real___tsan_##atomic##_load(const volatile u *at, int order); \
    u __wrap___tsan_##atomic##_load(const volatile u *at, int order) { \
        delay(); \
        u found = __real___tsan_##atomic##_load(at, order_of(order)); \
        delay(); \
        return found; \
    } \
    void __real___tsan_##atomic##_store(volatile u *at, u value, int order); \
    void __wrap___tsan_##atomic##_store(volatile u *at, u value, int order) { \
        delay(); \
        __real___tsan_##atomic##_store(at, value, order_of(order)); \
        delay(); \
    } \
    u __real___tsan_##atomic##_compare_exchange_val(volatile u *at, u expected, u value, \
                                                    int order, int otherwise); \
    u __wrap___tsan_##atomic##_compare_exchange_val(volatile u *at, u expected, u value, \
                                                    int order, int otherwise) { \
        delay(); \
        u found = __real___tsan_##atomic##_compare_exchange_val(at, expected, value, \
                                                                order_of(order), \
                                                                order_of(otherwise)); \
        delay(); \
        return found; \
    } \
    CHANGE(u, atomic##_exchange) \
    CHANGE(u, atomic##_fetch_add) \
    CHANGE(u, atomic##_fetch_sub)
ATOMICS(uint32_t, atomic32)
ATOMICS(uint64_t, atomic64)
