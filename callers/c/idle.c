/* A server's idle timeouts: 1,000 connections, each with a timer that is started anew when bytes come. The loop sleeps until bytes come or the
 * next timer has to run, and isn't woken in between. Connections are event descriptors here, and one timer more plays the other side: each 5 ms
 * it sends bytes on a few of them, for 300 ms. Afterwards all fall silent. */
#define _POSIX_C_SOURCE 200809L
#include "hrt.h"

#include <inttypes.h>
#include <stdio.h>
#include <stdlib.h>
#include <sys/epoll.h>
#include <sys/eventfd.h>
#include <time.h>
#include <unistd.h>

enum { CONNECTIONS = 1000, SENDER = CONNECTIONS, TIMERS };
#define MS UINT64_C(1000000)
#define IDLE (200 * MS)
#define EACH (5 * MS)
#define SENDS (300 * MS)

static hrt_timers timers = HRT_NONE;
static struct connection {
    int events;
    uint64_t heard; /* when bytes came last */
} connections[CONNECTIONS];
static int all, open_ones = CONNECTIONS;
static uint64_t first, early, idle_wakes;

static void need(int holds, const char *what) {
    if (holds) return;
    perror(what);
    exit(1);
}

/* All timers here are of the monotonic clock, so the others may show anything. */
static hrt_time read_clock(void) {
    struct timespec t;
    clock_gettime(CLOCK_MONOTONIC, &t);
    return (hrt_time){.mono = (uint64_t)t.tv_sec * 1000000000 + (uint64_t)t.tv_nsec};
}

static void start(uint32_t timer, uint64_t ns, const hrt_time *now) {
    hrt_answer a;
    need(hrt_start(&timers, timer, HRT_MODE_REL, ns, 0, 0, now, &a) == HRT_DONE, "hrt_start");
}

static void hear(uint32_t number, const hrt_time *now) {
    uint64_t bytes;
    if (read(connections[number].events, &bytes, sizeof bytes) < 0) return;
    connections[number].heard = now->mono;
    start(number, IDLE, now);
}

/* Some of each tenth connection. */
static void send_bytes(void) {
    static uint32_t turn;
    for (int i = 0; i < 20; i++) {
        struct connection *it = &connections[turn++ * 10 % CONNECTIONS];
        if (it->events >= 0) need(eventfd_write(it->events, 1) == 0, "eventfd_write");
    }
}

static void close_idle(uint32_t number, uint64_t now) {
    struct connection *it = &connections[number];
    early += now < it->heard + IDLE;
    close(it->events);
    it->events = -1;
    open_ones--;
}

/* Runs the functions of all timers that are due; answers whether one was. */
static int expire(const hrt_time *now) {
    hrt_answer a;
    int ran = 0;
    for (; hrt_claim(&timers, HRT_HARD, 0, now, &a) == HRT_CLAIMED; ran = 1) {
        uint32_t timer = a.timer, again = 0;
        if (timer != SENDER) {
            close_idle(timer, now->mono);
        } else if (now->mono < first + SENDS) {
            send_bytes();
            again = hrt_forward(&timers, timer, now, EACH, &a) == HRT_DONE;
        }
        hrt_finish(&timers, timer, again, &a);
    }
    return ran;
}

/* Milliseconds to sleep, rounded up, so that the timer is due then; -1 where none is armed: then bytes alone end the sleep. */
static int sleep_time(void) {
    hrt_time now = read_clock();
    hrt_answer a;
    if (hrt_next(&timers, 0, &now, &a) != HRT_ARMED) return -1;
    uint64_t ms = a.wait / MS + (a.wait % MS != 0);
    return ms < 60000 ? (int)ms : 60000;
}

static void turn(void) {
    static struct epoll_event events[CONNECTIONS];
    int count = epoll_wait(all, events, CONNECTIONS, sleep_time());
    hrt_time now = read_clock();
    for (int i = 0; i < count; i++) hear(events[i].data.u32, &now);
    int ran = expire(&now);
    idle_wakes += count == 0 && !ran;
}

int main(void) {
    static hrt_declared declared[TIMERS];
    for (int i = 0; i < TIMERS; i++) declared[i] = (hrt_declared){HRT_CLOCK_MONOTONIC, HRT_HARD};
    need(hrt_new(&timers, 1, declared, TIMERS, HRT_MAX_EVENTS) == HRT_DONE, "hrt_new");
    need((all = epoll_create1(EPOLL_CLOEXEC)) >= 0, "epoll_create1");
    hrt_time now = read_clock();
    first = now.mono;
    for (uint32_t i = 0; i < CONNECTIONS; i++) {
        struct epoll_event event = {.events = EPOLLIN, .data.u32 = i};
        connections[i] = (struct connection){eventfd(0, EFD_NONBLOCK | EFD_CLOEXEC), now.mono};
        need(connections[i].events >= 0, "eventfd");
        need(epoll_ctl(all, EPOLL_CTL_ADD, connections[i].events, &event) == 0, "epoll_ctl");
        start(i, IDLE, &now);
    }
    start(SENDER, EACH, &now);
    while (open_ones > 0) turn();
    printf("all closed, %" PRIu64 " before their time; woken %" PRIu64 " times for nothing\n", early, idle_wakes);
    hrt_free(&timers);
    close(all);
    return 0;
}
