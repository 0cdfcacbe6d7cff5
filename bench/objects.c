// POSIX timers and timer descriptors of the running kernel by system calls: the cases of crates/benches/src/objects. The accept of a POSIX timer
// is here the wait for its signal, which is blocked. The kernel queues no timer that has no signal (SIGEV_NONE), so settimes alone are timed of
// both sorts.
#define _GNU_SOURCE
#include <poll.h>
#include <signal.h>
#include <stdint.h>
#include <stdio.h>
#include <stdlib.h>
#include <sys/timerfd.h>
#include <time.h>
#include <unistd.h>

enum { TIMES = 10240, ROUNDS = 7, MOST = 256 };

static const struct itimerspec FAR = {{0, 0}, {3600, 0}}, PAST = {{0, 0}, {0, 1}}, OFF;

// Objects of one kind, the signal of timers, and what a turn does: it looks at each, or arms each and ends it.
struct worker {
    int count, fds[MOST];
    timer_t timers[MOST];
    sigset_t signals;
    int notify;
    void (*set)(struct worker *, int, int, const struct itimerspec *);
    void (*take)(struct worker *, int);
    void (*look)(struct worker *, int);
};

static void set_timer(struct worker *own, int i, int flags, const struct itimerspec *value) {
    timer_settime(own->timers[i], flags, value, NULL);
}

static void set_descriptor(struct worker *own, int i, int flags, const struct itimerspec *value) {
    timerfd_settime(own->fds[i], flags, value, NULL);
}

static void accept_signal(struct worker *own, int i) {
    struct timespec wait = {1, 0};
    (void)i;
    if (sigtimedwait(&own->signals, NULL, &wait) < 0)
        exit(1);
}

static void read_descriptor(struct worker *own, int i) {
    uint64_t count;
    if (read(own->fds[i], &count, sizeof count) != sizeof count)
        exit(1);
}

static void look_at_timer(struct worker *own, int i) {
    if (timer_getoverrun(own->timers[i]) != 0)
        exit(1);
}

static void look_at_descriptor(struct worker *own, int i) {
    struct pollfd asked = {.fd = own->fds[i], .events = POLLIN};
    if (poll(&asked, 1, 0) != 0)
        exit(1);
}

static void looks(struct worker *own) {
    for (int turn = 0; turn < TIMES / own->count; turn++)
        for (int i = 0; i < own->count; i++)
            own->look(own, i);
}

static void turns(struct worker *own) {
    for (int turn = 0; turn < TIMES / own->count; turn++) {
        for (int i = 0; i < own->count; i++)
            own->set(own, i, own->take ? TIMER_ABSTIME : 0, own->take ? &PAST : &FAR);
        for (int i = 0; i < own->count; i++)
            if (own->take)
                own->take(own, i);
            else
                own->set(own, i, 0, &OFF);
    }
}

static void make(struct worker *own, int signal) {
    struct sigevent event = {.sigev_notify = own->notify, .sigev_signo = signal};
    sigemptyset(&own->signals);
    sigaddset(&own->signals, signal);
    sigprocmask(SIG_BLOCK, &own->signals, NULL);
    for (int i = 0; i < own->count; i++)
        if (own->set == set_descriptor ? (own->fds[i] = timerfd_create(CLOCK_MONOTONIC, 0)) < 0 : timer_create(CLOCK_MONOTONIC, &event, &own->timers[i]) != 0)
            exit(1);
}

static void end(struct worker *own) {
    for (int i = 0; i < own->count; i++)
        if (own->set == set_descriptor)
            close(own->fds[i]);
        else
            timer_delete(own->timers[i]);
}

static double now(void) {
    struct timespec t;
    clock_gettime(CLOCK_MONOTONIC, &t);
    return t.tv_sec * 1e9 + t.tv_nsec;
}

static void line(const char *kind, const char *op, struct worker own) {
    double least = 1e18;
    make(&own, SIGRTMIN);
    for (int i = 0; i < ROUNDS; i++) {
        double start = now();
        (own.look ? looks : turns)(&own);
        double took = now() - start;
        if (took < least)
            least = took;
    }
    end(&own);
    printf("system calls\t%s\t%s\t%d\t%.1f\n", kind, op, own.count, least / TIMES);
}

int main(void) {
    for (int count = 1; count <= MOST; count *= MOST) {
        struct worker timer = {.count = count, .notify = SIGEV_SIGNAL, .set = set_timer}, silent = timer, descriptor = timer;
        silent.notify = SIGEV_NONE;
        descriptor.set = set_descriptor;
        line("POSIX timer", "settime, settime 0", timer);
        line("POSIX, SIGEV_NONE", "settime, settime 0", silent);
        timer.take = accept_signal;
        line("POSIX timer", "settime, expiry, accept", timer);
        timer.look = look_at_timer;
        line("POSIX timer", "getoverrun", timer);
        line("descriptor", "settime, settime 0", descriptor);
        descriptor.take = read_descriptor;
        line("descriptor", "settime, expiry, read", descriptor);
        descriptor.look = look_at_descriptor;
        line("descriptor", "poll", descriptor);
    }
    return 0;
}
