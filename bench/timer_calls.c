// Timers of the running kernel by system calls, with so many others armed: timerfd descriptors and POSIX timers. Beside the cases of
// crates/benches/src/timers.
#define _GNU_SOURCE
#include <pthread.h>
#include <signal.h>
#include <stdint.h>
#include <stdio.h>
#include <stdlib.h>
#include <sys/timerfd.h>
#include <time.h>
#include <unistd.h>

enum { TIMES = 20000, ROUNDS = 5, OTHERS = 256 };

static const struct itimerspec FAR = {{0, 0}, {3600, 0}}, PAST = {{0, 0}, {0, 1}}, OFF;

// A descriptor, and a timer with a signal of its own.
struct pair {
    int fd;
    timer_t timer;
    sigset_t signals;
};

static void descriptor_start_cancel(struct pair *own) {
    timerfd_settime(own->fd, 0, &FAR, NULL);
    timerfd_settime(own->fd, 0, &OFF, NULL);
}

static void descriptor_expiry(struct pair *own) {
    uint64_t count;
    timerfd_settime(own->fd, TFD_TIMER_ABSTIME, &PAST, NULL);
    if (read(own->fd, &count, sizeof count) != sizeof count)
        exit(1);
}

static void timer_start_cancel(struct pair *own) {
    timer_settime(own->timer, 0, &FAR, NULL);
    timer_settime(own->timer, 0, &OFF, NULL);
}

static void timer_expiry(struct pair *own) {
    struct timespec wait = {1, 0};
    timer_settime(own->timer, TIMER_ABSTIME, &PAST, NULL);
    if (sigtimedwait(&own->signals, NULL, &wait) < 0)
        exit(1);
}

struct worker {
    struct pair own;
    void (*turn)(struct pair *);
};

static void *turns(void *of) {
    struct worker *worker = of;
    for (int i = 0; i < TIMES; i++)
        worker->turn(&worker->own);
    return NULL;
}

static struct pair make(int signal) {
    struct sigevent event = {.sigev_notify = SIGEV_SIGNAL, .sigev_signo = signal};
    struct pair own = {.fd = timerfd_create(CLOCK_MONOTONIC, TFD_NONBLOCK)};
    sigemptyset(&own.signals);
    sigaddset(&own.signals, signal);
    pthread_sigmask(SIG_BLOCK, &own.signals, NULL);
    if (own.fd < 0 || timer_create(CLOCK_MONOTONIC, &event, &own.timer) != 0)
        exit(1);
    return own;
}

static double now(void) {
    struct timespec t;
    clock_gettime(CLOCK_MONOTONIC, &t);
    return t.tv_sec * 1e9 + t.tv_nsec;
}

static double round_of(struct worker *workers, int threads) {
    pthread_t thread;
    double start = now();
    if (threads == 2 && pthread_create(&thread, NULL, turns, &workers[1]) != 0)
        exit(1);
    turns(&workers[0]);
    if (threads == 2)
        pthread_join(thread, NULL);
    return now() - start;
}

static void line(const char *name, const char *what, int threads, void (*turn)(struct pair *)) {
    struct worker workers[] = {{make(SIGRTMIN), turn}, {make(SIGRTMIN + 1), turn}};
    double least = 1e18;
    for (int i = 0; i < ROUNDS; i++) {
        double took = round_of(workers, threads);
        if (took < least)
            least = took;
    }
    printf("%s\t%s\t%s\t%d\t1\t%.1f\n", name, what, threads == 1 ? "one thread" : "two threads, two bases", OTHERS, least / TIMES);
}

int main(void) {
    for (int i = 0; i < OTHERS; i++)
        timerfd_settime(timerfd_create(CLOCK_MONOTONIC, 0), 0, &FAR, NULL);
    for (int threads = 1; threads <= 2; threads++) {
        line("timerfd", "start, cancel", threads, descriptor_start_cancel);
        line("timerfd", "start, claim, finish", threads, descriptor_expiry);
        line("POSIX timer", "start, cancel", threads, timer_start_cancel);
        line("POSIX timer", "start, claim, finish", threads, timer_expiry);
    }
    return 0;
}
