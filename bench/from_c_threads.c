/* Timers that threads share, from C. Three ways to call it:
 *
 *   from_c_threads pairs WAY THREADS QUEUED TIMES   nanoseconds a thread for a start and a cancel, beside so many queued timers a base. WAY: seats, each
 *                                                   thread on a base of its own; one, all on base 0; mutex, a handle of one thread behind a mutex
 *   from_c_threads memory BASES TIMERS              the most memory that making and leaving so many took, in bytes a timer
 *   from_c_threads all BASES THREADS TIMERS         each thread starts its share of the timers, spread over the bases; then they expire all; each runs once
 */
#define _GNU_SOURCE
#include "hrt.h"

#include <pthread.h>
#include <stdatomic.h>
#include <stdio.h>
#include <stdlib.h>
#include <string.h>
#include <sys/resource.h>
#include <time.h>

enum { MOST = 64 };
static const uint64_t second = 1000000000;
static const hrt_time at_once = {1, 1, 1};
static uint32_t bases, thread_count, queued, times, timer_count;
static int on_one, by_mutex;
static hrt_timers behind = HRT_NONE;
static pthread_mutex_t mutex = PTHREAD_MUTEX_INITIALIZER;
static pthread_barrier_t together;
static atomic_uchar *runs;

struct worker {
    pthread_t id;
    hrt_seat seat;
    uint32_t number;
    double wall;
};
static struct worker workers[MOST];

static void need(int holds, const char *what) {
    if (holds) return;
    fprintf(stderr, "from_c_threads: %s\n", what);
    exit(1);
}

static double wall(void) {
    struct timespec t;
    clock_gettime(CLOCK_MONOTONIC, &t);
    return (double)t.tv_sec * 1e9 + (double)t.tv_nsec;
}

static hrt_declared *declare(size_t count) {
    hrt_declared *declared = calloc(count, sizeof *declared);
    need(declared != NULL, "no memory");
    for (size_t i = 0; i < count; i++) declared[i] = (hrt_declared){HRT_CLOCK_MONOTONIC, HRT_HARD};
    return declared;
}

static int32_t start(hrt_seat *seat, uint32_t timer, uint64_t ns, uint32_t base) {
    hrt_shared_answer a;
    int32_t number;
    for (uint32_t tries = 0; hrt_again(number = hrt_shared_start(seat, timer, HRT_MODE_ABS, ns, 0, base, &at_once, &a));) hrt_pause(tries++);
    return number;
}

static int32_t cancel(hrt_seat *seat, uint32_t timer) {
    hrt_shared_answer a;
    int32_t number;
    for (uint32_t tries = 0; hrt_again(number = hrt_shared_cancel(seat, timer, &a));) hrt_pause(tries++);
    return number;
}

/* Timer of a thread: its own, behind all that are queued on its base. */
static void *pairs(void *at) {
    struct worker *it = at;
    const uint32_t base = on_one ? 0 : it->number, timer = it->number * (queued + 1) + queued;
    pthread_barrier_wait(&together);
    const double begun = wall();
    for (uint32_t i = 0; i < times; i++) {
        const uint64_t ns = second + (i * 2654435761u) % queued * 100;
        if (by_mutex) {
            hrt_answer a;
            pthread_mutex_lock(&mutex);
            hrt_start(&behind, timer, HRT_MODE_ABS, ns, 0, base, &at_once, &a);
            pthread_mutex_unlock(&mutex);
            pthread_mutex_lock(&mutex);
            hrt_cancel(&behind, timer, &a);
            pthread_mutex_unlock(&mutex);
        } else {
            need(start(&it->seat, timer, ns, base) == HRT_DONE && cancel(&it->seat, timer) == HRT_CANCELLED, "a pair");
        }
    }
    it->wall = wall() - begun;
    return NULL;
}

static void open_seats(void) {
    hrt_declared *declared = declare(timer_count);
    workers[0].seat = (hrt_seat)HRT_NO_SEAT;
    need(hrt_shared_open(&workers[0].seat, bases, declared, timer_count, HRT_MAX_EVENTS) == HRT_DONE, "hrt_shared_open");
    free(declared);
    for (uint32_t i = 0; i < thread_count; i++) {
        workers[i].number = i;
        if (i == 0) continue;
        workers[i].seat = (hrt_seat)HRT_NO_SEAT;
        need(hrt_shared_split(&workers[0].seat, &workers[i].seat) == HRT_DONE, "hrt_shared_split");
    }
}

static void leave_seats(void) {
    for (uint32_t i = 0; i < thread_count; i++) need(hrt_shared_leave(&workers[i].seat) == HRT_DONE, "hrt_shared_leave");
}

static void on_threads(void *(*live)(void *)) {
    need(pthread_barrier_init(&together, NULL, thread_count) == 0, "a barrier");
    for (uint32_t i = 0; i < thread_count; i++) need(pthread_create(&workers[i].id, NULL, live, &workers[i]) == 0, "a thread");
    for (uint32_t i = 0; i < thread_count; i++) pthread_join(workers[i].id, NULL);
}

static int time_pairs(char **word) {
    on_one = strcmp(word[0], "one") == 0, by_mutex = strcmp(word[0], "mutex") == 0;
    thread_count = (uint32_t)atoi(word[1]), queued = (uint32_t)atoi(word[2]), times = (uint32_t)atoi(word[3]);
    bases = thread_count, timer_count = thread_count * (queued + 1);
    if (by_mutex) {
        hrt_declared *declared = declare(timer_count);
        need(hrt_new(&behind, bases, declared, timer_count, HRT_MAX_EVENTS) == HRT_DONE, "hrt_new");
        free(declared);
        for (uint32_t i = 0; i < thread_count; i++) workers[i].number = i;
    } else {
        open_seats();
    }
    for (uint32_t i = 0; i < thread_count; i++) {
        for (uint32_t k = 0; k < queued; k++) {
            const uint32_t timer = i * (queued + 1) + k, base = on_one ? 0 : i;
            hrt_answer a;
            const int32_t number = by_mutex ? hrt_start(&behind, timer, HRT_MODE_ABS, second + k * 100, 0, base, &at_once, &a)
                                            : start(&workers[0].seat, timer, second + k * 100, base);
            need(number == HRT_DONE, "a start");
        }
    }
    on_threads(pairs);
    double sum = 0;
    for (uint32_t i = 0; i < thread_count; i++) sum += workers[i].wall;
    printf("%s %u %u: %.1f\n", word[0], thread_count, queued, sum / thread_count / times);
    return 0;
}

static long most_memory(void) {
    struct rusage used;
    getrusage(RUSAGE_SELF, &used);
    return used.ru_maxrss * 1024;
}

static int tell_memory(char **word) {
    bases = (uint32_t)atoi(word[0]), timer_count = (uint32_t)atoi(word[1]), thread_count = 1;
    const long before = most_memory();
    hrt_declared *declared = declare(timer_count);
    workers[0].seat = (hrt_seat)HRT_NO_SEAT;
    need(hrt_shared_open(&workers[0].seat, bases, declared, timer_count, HRT_MAX_EVENTS) == HRT_DONE, "hrt_shared_open");
    for (uint32_t i = 0; i < timer_count; i++) need(start(&workers[0].seat, i, second + i, i % bases) == HRT_DONE, "a start");
    const long after = most_memory();
    leave_seats();
    free(declared);
    printf("%u bases, %u timers: %.1f MB, %.0f bytes a timer\n", bases, timer_count, (double)(after - before) / 1e6,
           (double)(after - before) / timer_count);
    return 0;
}

/* Starts this thread's share, waits for the others, and then runs what is due on each base in turn until nothing is. */
static void *run_all(void *at) {
    struct worker *it = at;
    const hrt_time later = {second, second, second};
    for (uint32_t i = it->number; i < timer_count; i += thread_count) need(start(&it->seat, i, 1 + i % 1000, i / thread_count % bases) == HRT_DONE, "a start");
    pthread_barrier_wait(&together);
    for (uint32_t turn = 0; turn < bases; turn++) {
        const uint32_t base = (turn + it->number) % bases;
        hrt_shared_answer a;
        for (uint32_t tries = 0;;) {
            const int32_t number = hrt_shared_claim(&it->seat, HRT_HARD, base, &later, &a);
            if (number == HRT_DONE) break;
            if (number != HRT_CLAIMED) {
                hrt_pause(tries++);
                continue;
            }
            tries = 0;
            atomic_fetch_add(&runs[a.timer], 1);
            const uint32_t timer = a.timer;
            for (uint32_t again = 0; hrt_again(hrt_shared_finish(&it->seat, timer, 0, &a));) hrt_pause(again++);
        }
    }
    return NULL;
}

static int run_each_once(char **word) {
    bases = (uint32_t)atoi(word[0]), thread_count = (uint32_t)atoi(word[1]), timer_count = (uint32_t)atoi(word[2]);
    need((runs = calloc(timer_count, 1)) != NULL, "no memory");
    open_seats();
    const double begun = wall();
    on_threads(run_all);
    const double lasted = wall() - begun;
    for (uint32_t i = 0; i < timer_count; i++) need(runs[i] == 1, "a timer didn't run once");
    leave_seats();
    printf("%u timers on %u bases by %u threads: each ran once, %.2f s\n", timer_count, bases, thread_count, lasted / 1e9);
    return 0;
}

int main(int words, char **word) {
    if (words == 6 && strcmp(word[1], "pairs") == 0) return time_pairs(word + 2);
    if (words == 4 && strcmp(word[1], "memory") == 0) return tell_memory(word + 2);
    if (words == 5 && strcmp(word[1], "all") == 0) return run_each_once(word + 2);
    return 2;
}
