// The kernel's own tree of timers, a queue a base, under a lock each: a test-and-test-and-set lock of C11, or pthread's spin lock. The cases are
// those of crates/benches, src/bases (word `base`) and src/timers (word `timers`; `scale N`: a start and a cancel with N queued).
#include <linux/bug.h>
#include <linux/timerqueue.h>
#include <pthread.h>
#include <sched.h>
#include <stdatomic.h>
#include <stdio.h>
#include <stdlib.h>
#include <string.h>
#include <time.h>

enum { TIMES = 100000, ROUNDS = 7 };

struct base {
    union {
        pthread_spinlock_t spin;
        atomic_bool taken;
    };
    struct timerqueue_head queue;
    struct timerqueue_node *running;
} __attribute__((aligned(128)));

// A timer on its base, with the word that a look reads.
struct timer {
    struct timerqueue_node node;
    atomic_uint_fast64_t word;
};

struct worker {
    struct base *base;
    struct timer *timers;
    unsigned count;
    uint64_t random;
    void (*turn)(struct worker *, struct timer *, uint64_t expires);
};

// What a thread does in a turn. None: it looks at a timer's word.
typedef void (*turn_of)(struct worker *, struct timer *, uint64_t expires);

static bool pthreads;
static struct base bases[2];

// Spins for twice as long each time, and then gives the processor away, as the proved lock does.
static void back_off(unsigned step) {
    if (step > 6)
        sched_yield();
    for (unsigned i = 0; step <= 6 && i < 1u << step; i++)
#if defined(__x86_64__)
        __builtin_ia32_pause();
#else
        atomic_signal_fence(memory_order_seq_cst);
#endif
}

static void lock(struct base *base) {
    if (pthreads) {
        pthread_spin_lock(&base->spin);
        return;
    }
    for (unsigned step = 0; atomic_load_explicit(&base->taken, memory_order_relaxed)
                            || atomic_exchange_explicit(&base->taken, true, memory_order_acquire);
         step++)
        back_off(step);
}

static void unlock(struct base *base) {
    if (pthreads)
        pthread_spin_unlock(&base->spin);
    else
        atomic_store_explicit(&base->taken, false, memory_order_release);
}

static void add(struct base *base, struct timer *timer, uint64_t expires) {
    timer->node.expires = expires;
    timerqueue_add(&base->queue, &timer->node);
    atomic_store_explicit(&timer->word, timer->word + 3, memory_order_release);
}

static void erase(struct base *base, struct timer *timer) {
    timerqueue_del(&base->queue, &timer->node);
    atomic_store_explicit(&timer->word, timer->word + 1, memory_order_release);
}

static void start(struct base *base, struct timer *timer, uint64_t expires) {
    lock(base);
    add(base, timer, expires);
    unlock(base);
}

static void cancel(struct base *base, struct timer *timer) {
    lock(base);
    if (timerqueue_node_queued(&timer->node))
        erase(base, timer);
    unlock(base);
}

static void start_and_cancel_at_once(struct worker *worker, struct timer *timer, uint64_t expires) {
    lock(worker->base);
    add(worker->base, timer, expires);
    erase(worker->base, timer);
    unlock(worker->base);
}

static void start_and_cancel(struct worker *worker, struct timer *timer, uint64_t expires) {
    start(worker->base, timer, expires);
    cancel(worker->base, timer);
}

// A start at an expiry that is reached, a claim of what is due, and the end of its function. With two threads on a base, one may
// claim the other's timer, or find a function running.
static void start_and_run(struct worker *worker, struct timer *timer, uint64_t expires) {
    struct base *base = worker->base;
    (void)expires;
    lock(base);
    if (timerqueue_node_queued(&timer->node))
        erase(base, timer);
    add(base, timer, 500);
    unlock(base);
    lock(base);
    struct timerqueue_node *first = timerqueue_getnext(&base->queue);
    if (base->running != NULL || first->expires > 500) {
        unlock(base);
        return;
    }
    erase(base, container_of(first, struct timer, node));
    base->running = first;
    unlock(base);
    lock(base);
    base->running = NULL;
    unlock(base);
}

static void *turns(void *of) {
    struct worker *worker = of;
    uint64_t x = worker->random;
    for (int i = 0; i < TIMES; i++) {
        x ^= x << 13, x ^= x >> 7, x ^= x << 17;
        struct timer *timer = &worker->timers[x & (worker->count - 1)];
        x ^= x << 13, x ^= x >> 7, x ^= x << 17;
        worker->turn(worker, timer, 1000 + x % 1048576);
    }
    return NULL;
}

static void *looks(void *of) {
    struct worker *worker = of;
    for (int i = 0; i < TIMES; i++)
        atomic_load_explicit(&worker->timers->word, memory_order_acquire);
    return NULL;
}

static void empty(struct base *base) {
    if (pthreads)
        pthread_spin_init(&base->spin, 0);
    else
        atomic_init(&base->taken, false);
    timerqueue_init_head(&base->queue);
    base->running = NULL;
}

// So many idle timers for a thread, and behind them as many that are queued on a base.
static struct timer *fill(struct base *base, unsigned count) {
    struct timer *timers = aligned_alloc(128, 2 * count * sizeof *timers);
    static uint64_t x = 0x9E3779B97F4A7C15;
    for (unsigned i = 0; i < 2 * count; i++) {
        timerqueue_init(&timers[i].node);
        timers[i].word = 0;
        x ^= x << 13, x ^= x >> 7, x ^= x << 17;
        if (i >= count)
            start(base, &timers[i], 1000 + x % 1048576);
    }
    return timers;
}

static double now(void) {
    struct timespec t;
    clock_gettime(CLOCK_MONOTONIC, &t);
    return t.tv_sec * 1e9 + t.tv_nsec;
}

// One thread on base 0, or a second one beside it on the base that is named.
static double round_of(struct worker *workers, struct base *second, void *(*run)(void *)) {
    pthread_t thread;
    double start = now();
    if (second != NULL && pthread_create(&thread, NULL, run, &workers[1]) != 0)
        exit(1);
    run(&workers[0]);
    if (second != NULL)
        pthread_join(thread, NULL);
    return now() - start;
}

static void line(const char *what, unsigned queued, unsigned started, const char *threads, struct base *second, turn_of turn) {
    empty(&bases[0]);
    empty(&bases[1]);
    struct timer *timers[] = {fill(&bases[0], queued), fill(&bases[1], queued)};
    struct worker workers[] = {{&bases[0], timers[0], started, 1, turn}, {second, timers[1], started, 3, turn}};
    double least = 1e18;
    for (int i = 0; i < ROUNDS; i++) {
        double took = round_of(workers, second, turn == NULL ? looks : turns);
        if (took < least)
            least = took;
    }
    printf("%s lock\t%s%s\t%u\t%u\t%.1f\n", pthreads ? "pthread" : "C11", what, threads, queued, started, least / TIMES);
    free(timers[0]);
    free(timers[1]);
}

static void lines(const char *what, unsigned queued, unsigned started, turn_of turn) {
    line(what, queued, started, "one thread", NULL, turn);
    line(what, queued, started, "two threads, two bases", &bases[1], turn);
    line(what, queued, started, "two threads, one base", &bases[0], turn);
}

int main(int count, char **words) {
    if (count < 2)
        return 2;
    if (strcmp(words[1], "scale") == 0) {
        line("start, cancel\t", count > 2 ? strtoul(words[2], NULL, 10) : 256, 1, "one thread", NULL, start_and_cancel);
        return 0;
    }
    for (int lock = 0; lock < 2; lock++, pthreads = true) {
        if (strcmp(words[1], "base") == 0) {
            for (unsigned queued = 256; queued <= 4096; queued *= 16) {
                lines("", queued, 1, start_and_cancel_at_once);
                lines("", queued, queued, start_and_cancel_at_once);
            }
            continue;
        }
        lines("start, cancel\t", 256, 1, start_and_cancel);
        lines("start, claim, finish\t", 256, 1, start_and_run);
        lines("peek\t", 256, 1, NULL);
    }
    return 0;
}
