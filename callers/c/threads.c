/* Four threads share timers, each with a seat and a base of its own. Each starts and cancels timers on all bases, runs the functions of its own base, and
 * sleeps until the next timer there has to run. A start that comes first on another thread's base wakes that thread by its event descriptor. It goes on for
 * the seconds that are given, 1 without a number. Each thread notes all that its calls tell; the notes, sorted by the number of the entry, show at the end
 * that no timer was lost or ran twice: each start was claimed, cancelled or started over by the next entry that ends it, or its timer is armed still. */
#define _POSIX_C_SOURCE 200809L
#include "hrt.h"

#include <inttypes.h>
#include <poll.h>
#include <pthread.h>
#include <stdatomic.h>
#include <stdio.h>
#include <stdlib.h>
#include <sys/eventfd.h>
#include <time.h>
#include <unistd.h>

enum { THREADS = 4, TIMERS = 64, ROUND = 16 };
#define MS UINT64_C(1000000)

/* One entry: what it did to its timer, and a time: a soft expiry, or that of the claim. */
enum kind { START, MOVED_START, CANCEL, CLAIM, FORWARD, FINISH, FINISH_AGAIN, KINDS };
struct note {
    uint32_t timer, armed;
    enum kind kind;
    uint64_t number, generation, time;
};

static struct thread {
    pthread_t id;
    hrt_seat seat;
    uint32_t base;
    int kick;
    uint32_t random;
    struct note *notes;
    size_t count, room;
} threads[THREADS];
static atomic_int done;

static void need(int holds, const char *what) {
    if (holds) return;
    fprintf(stderr, "threads: %s\n", what);
    exit(1);
}

/* All timers here are of the monotonic clock, so the others may show anything. */
static hrt_time read_clock(void) {
    struct timespec t;
    clock_gettime(CLOCK_MONOTONIC, &t);
    return (hrt_time){.mono = (uint64_t)t.tv_sec * 1000 * MS + (uint64_t)t.tv_nsec};
}

static uint32_t pick(struct thread *it, uint32_t below) {
    it->random = it->random * 1664525 + 1013904223;
    return (it->random >> 8) % below;
}

static void note(struct thread *it, enum kind kind, const hrt_shared_answer *a, uint64_t time) {
    if (it->count == it->room) {
        it->room = it->room ? 2 * it->room : 4096;
        need((it->notes = realloc(it->notes, it->room * sizeof *it->notes)) != NULL, "no memory");
    }
    it->notes[it->count++] = (struct note){a->timer, a->armed, kind, a->number, a->generation, time};
}

static void kick(const struct thread *it) {
    const uint64_t one = 1;
    need(write(it->kick, &one, sizeof one) == sizeof one, "write");
}

static void start(struct thread *it) {
    const uint32_t timer = pick(it, TIMERS), base = pick(it, THREADS);
    const uint64_t ns = pick(it, 3000000), slack = pick(it, 200000);
    const hrt_time now = read_clock();
    hrt_shared_answer a;
    int32_t number;
    for (uint32_t tries = 0; hrt_again(number = hrt_shared_start(&it->seat, timer, HRT_MODE_REL, ns, slack, base, &now, &a));) hrt_pause(tries++);
    need(number == HRT_DONE, "hrt_shared_start");
    note(it, a.moved ? MOVED_START : START, &a, a.soft);
    if (a.first && a.base != it->base) kick(&threads[a.base]);
}

static void cancel(struct thread *it) {
    const uint32_t timer = pick(it, TIMERS);
    hrt_shared_answer a;
    int32_t number;
    for (uint32_t tries = 0; hrt_again(number = hrt_shared_cancel(&it->seat, timer, &a));) hrt_pause(tries++);
    need(number >= 0, "hrt_shared_cancel");
    if (number == HRT_CANCELLED) note(it, CANCEL, &a, 0);
}

/* The function of a timer: each fourth one goes on by a millisecond, if no start came in meanwhile. */
static void run(struct thread *it, uint32_t timer, const hrt_time *now) {
    hrt_shared_answer a;
    int32_t number;
    uint32_t again = 0, tries = 0;
    uint64_t soft = 0;
    if (timer % 4 == 0 && !atomic_load(&done)) {
        while (hrt_again(number = hrt_shared_forward(&it->seat, timer, now, MS, &a))) hrt_pause(tries++);
        again = number == HRT_DONE;
        if (again) note(it, FORWARD, &a, soft = a.soft);
    }
    for (tries = 0; hrt_again(number = hrt_shared_finish(&it->seat, timer, again, &a));) hrt_pause(tries++);
    need(number == HRT_DONE || number == HRT_AGAIN, "hrt_shared_finish");
    note(it, number == HRT_AGAIN ? FINISH_AGAIN : FINISH, &a, soft);
}

static void expire(struct thread *it) {
    for (uint32_t tries = 0;;) {
        const hrt_time now = read_clock();
        hrt_shared_answer a;
        const int32_t number = hrt_shared_claim(&it->seat, HRT_HARD, it->base, &now, &a);
        if (number == HRT_CLAIMED) {
            note(it, CLAIM, &a, now.mono);
            run(it, a.timer, &now);
            tries = 0;
        } else if (hrt_again(number)) {
            hrt_pause(tries++);
        } else {
            need(number == HRT_DONE, "hrt_shared_claim");
            return;
        }
    }
}

/* Until the next timer of the base has to run, or a kick. */
static void sleep_until_next(struct thread *it) {
    const hrt_time now = read_clock();
    hrt_shared_answer a;
    int32_t number;
    for (uint32_t tries = 0; hrt_again(number = hrt_shared_next(&it->seat, it->base, &now, &a));) hrt_pause(tries++);
    need(number == HRT_ARMED || number == HRT_DONE, "hrt_shared_next");
    struct pollfd wait = {it->kick, POLLIN, 0};
    if (poll(&wait, 1, number == HRT_ARMED ? (int)(a.wait / MS + (a.wait % MS != 0)) : -1) <= 0) return;
    uint64_t kicks;
    need(read(it->kick, &kicks, sizeof kicks) == sizeof kicks, "read");
}

static void *live(void *at) {
    struct thread *it = at;
    while (!atomic_load(&done)) {
        for (int i = 0; i < ROUND; i++) {
            if (pick(it, 3)) start(it);
            else cancel(it);
        }
        expire(it);
        if (!atomic_load(&done)) sleep_until_next(it);
    }
    return NULL;
}

static int by_timer_and_number(const void *left, const void *right) {
    const struct note *l = left, *r = right;
    if (l->timer != r->timer) return l->timer < r->timer ? -1 : 1;
    return l->number < r->number ? -1 : l->number > r->number;
}

/* Goes through a timer's entries in their order: none is missing, and each fits what came before. Answers how many there were. */
static size_t replay(const struct note *notes, size_t count, const hrt_shared_answer *left) {
    uint64_t armed = 0, running = 0, soft = 0, entries = 0;
    size_t at = 0;
    for (; at < count && notes[at].timer == left->timer; at++) {
        const struct note *it = &notes[at];
        entries += it->kind == MOVED_START ? 2 : 1; /* one more by which it left its base */
        need(it->number == entries, "an entry was lost, or told twice");
        switch (it->kind) {
        case START:
        case MOVED_START:
            need(it->armed == (armed != 0) && it->generation == it->number, "a start doesn't fit");
            armed = it->generation, soft = it->time;
            break;
        case CANCEL:
            need(armed && it->generation == armed && !running, "a cancel of another start");
            armed = 0;
            break;
        case CLAIM:
            need(armed && it->generation == armed && !running, "a claim of another start");
            need(it->time >= soft, "a claim before its time");
            running = armed, armed = 0;
            break;
        case FORWARD:
            need(running && !armed, "a forward without a run");
            break;
        default:
            need(running != 0, "a finish without a run");
            running = 0;
            if (it->kind == FINISH_AGAIN) armed = it->generation, soft = it->time;
        }
    }
    need(left->number == entries && left->armed == (armed != 0) && !left->running && !left->moving, "a timer isn't left as its entries say");
    return at;
}

int main(int argc, char **argv) {
    const double seconds = argc > 1 ? atof(argv[1]) : 1;
    hrt_declared declared[TIMERS];
    for (int i = 0; i < TIMERS; i++) declared[i] = (hrt_declared){HRT_CLOCK_MONOTONIC, HRT_HARD};
    need(hrt_shared_open(&threads[0].seat, THREADS, declared, TIMERS, HRT_MAX_EVENTS) == HRT_DONE, "hrt_shared_open");
    for (uint32_t i = 0; i < THREADS; i++) {
        threads[i].base = threads[i].random = i;
        need(i == 0 || hrt_shared_split(&threads[0].seat, &threads[i].seat) == HRT_DONE, "hrt_shared_split");
        need((threads[i].kick = eventfd(0, EFD_CLOEXEC)) >= 0, "eventfd");
    }
    for (int i = 0; i < THREADS; i++) need(pthread_create(&threads[i].id, NULL, live, &threads[i]) == 0, "pthread_create");
    const struct timespec while_they_run = {(time_t)seconds, (long)((seconds - (double)(time_t)seconds) * 1e9)};
    nanosleep(&while_they_run, NULL);
    atomic_store(&done, 1);
    for (int i = 0; i < THREADS; i++) kick(&threads[i]);
    size_t count = 0, kinds[KINDS] = {0};
    for (int i = 0; i < THREADS; i++) {
        need(pthread_join(threads[i].id, NULL) == 0, "pthread_join");
        count += threads[i].count;
    }
    struct note *all = malloc((count + 1) * sizeof *all), *next = all;
    need(all != NULL, "no memory");
    for (int i = 0; i < THREADS; i++) {
        for (size_t j = 0; j < threads[i].count; j++) kinds[threads[i].notes[j].kind]++, *next++ = threads[i].notes[j];
    }
    qsort(all, count, sizeof *all, by_timer_and_number);
    size_t at = 0;
    for (uint32_t timer = 0; timer < TIMERS; timer++) {
        hrt_shared_answer left;
        need(hrt_shared_peek(&threads[timer % THREADS].seat, timer, &left) == HRT_DONE, "hrt_shared_peek");
        at += replay(all + at, count - at, &left);
    }
    need(at == count, "an entry of no timer");
    for (int i = 0; i < KINDS; i++) need(kinds[i] > 0, "a call that was never made");
    for (int i = 0; i < THREADS; i++) {
        need(hrt_shared_leave(&threads[i].seat) == HRT_DONE, "hrt_shared_leave");
        free(threads[i].notes);
        close(threads[i].kick);
    }
    free(all);
    printf("each start was claimed, cancelled or started over once, or is armed\n");
    if (argc > 1) {
        fprintf(stderr, "starts %zu, with a move %zu, cancels %zu, claims %zu, restarts %zu\n", kinds[START], kinds[MOVED_START], kinds[CANCEL], kinds[CLAIM],
                kinds[FINISH_AGAIN]);
    }
    return 0;
}
