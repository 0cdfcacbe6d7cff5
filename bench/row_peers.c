// A test-and-test-and-set lock of C11 round a 64-bit counter: the cases of crates/benches/src/rows.
#include <pthread.h>
#include <sched.h>
#include <stdatomic.h>
#include <stdbool.h>
#include <stddef.h>
#include <stdint.h>
#include <stdio.h>
#include <time.h>

enum { VALUES = 32, LOCKS = 500000, ROUNDS = 5 };

struct value {
    atomic_bool taken;
    uint64_t total;
};

static struct value values[VALUES];

// Spins for twice as long each time, and then gives the processor away, as the proved lock does.
static void back_off(unsigned step) {
    if (step > 6) {
        sched_yield();
        return;
    }
    for (unsigned i = 0; i < 1u << step; i++) {
#if defined(__x86_64__)
        __builtin_ia32_pause();
#else
        atomic_signal_fence(memory_order_seq_cst);
#endif
    }
}

static void lock(struct value *value) {
    for (unsigned step = 0; atomic_load_explicit(&value->taken, memory_order_relaxed)
                            || atomic_exchange_explicit(&value->taken, true, memory_order_acquire);
         step++)
        back_off(step);
}

static void unlock(struct value *value) {
    atomic_store_explicit(&value->taken, false, memory_order_release);
}

static void *turn(void *of) {
    struct value *value = of;
    for (int i = 0; i < LOCKS; i++) {
        lock(value);
        value->total++;
        unlock(value);
    }
    return NULL;
}

// One thread on value 0, or a second one beside it.
static int run(struct value *second) {
    pthread_t thread;
    if (second != NULL && pthread_create(&thread, NULL, turn, second) != 0)
        return -1;
    turn(&values[0]);
    return second == NULL ? 0 : pthread_join(thread, NULL);
}

static double now(void) {
    struct timespec t;
    clock_gettime(CLOCK_MONOTONIC, &t);
    return t.tv_sec * 1e9 + t.tv_nsec;
}

static int line(const char *place, struct value *second) {
    double least = 1e18;
    for (int round = 0; round < ROUNDS; round++) {
        double start = now();
        if (run(second) != 0)
            return 1;
        double took = now() - start;
        if (took < least)
            least = took;
    }
    printf("C11 lock\t%s\t%.1f\n", place, least / LOCKS);
    return 0;
}

int main(void) {
    return line("one thread, one value", NULL)
        || line("two threads, values side by side", &values[1])
        || line("two threads, values far apart", &values[VALUES - 1])
        || line("two threads, one value", &values[0]);
}
