/* Times one call from C, beside other libraries: from_c WHAT TIMERS TIMES prints nanoseconds of its thread's processor time for one. All timers are armed for one
 * second later. rearm, heap, libev and libuv arm a random one of them anew for a second later; peek looks at a random one, next asks how long to sleep. The heap
 * is a binary one of 64-bit expiries with the timers' places. bench/README.md has the commands. */
#include "hrt.h"

#include <ev.h>
#include <stdio.h>
#include <stdlib.h>
#include <string.h>
#include <time.h>
#include <uv.h>

enum { MOST = 1 << 20 };
static const uint64_t second = 1000000000;
static uint32_t count, seed = 1;
static uint64_t now;

static uint32_t any(void) {
    seed = seed * 1664525u + 1013904223u;
    return (uint32_t)(((uint64_t)seed * count) >> 32);
}

static hrt_timers timers = HRT_NONE;
static hrt_declared declared[MOST];
static hrt_answer answer;

static void hrt_rearm(uint32_t i) {
    const hrt_time t = {now += 100, 0, 0};
    hrt_start(&timers, i, HRT_MODE_REL, second, 0, 0, &t, &answer);
}

static void hrt_fill(void) {
    for (uint32_t i = 0; i < count; i++) declared[i] = (hrt_declared){HRT_CLOCK_MONOTONIC, HRT_HARD};
    if (hrt_new(&timers, 1, declared, count, HRT_MAX_EVENTS) != HRT_DONE) exit(1);
    for (uint32_t i = 0; i < count; i++) hrt_rearm(i);
}

static void look(uint32_t i) {
    hrt_peek(&timers, i, &answer);
}

static void next(uint32_t i) {
    const hrt_time t = {now + i, 0, 0};
    hrt_next(&timers, 0, &t, &answer);
}

static uint64_t key[MOST];
static uint32_t heap[MOST], place[MOST];

static void put(uint32_t at, uint32_t i) {
    heap[at] = i;
    place[i] = at;
}

static void heap_rearm(uint32_t i) {
    uint32_t at = place[i], under;
    key[i] = (now += 100) + second;
    for (; at > 0 && key[i] < key[heap[(at - 1) / 2]]; at = (at - 1) / 2) put(at, heap[(at - 1) / 2]);
    while ((under = 2 * at + 1) < count) {
        if (under + 1 < count && key[heap[under + 1]] < key[heap[under]]) under++;
        if (key[i] <= key[heap[under]]) break;
        put(at, heap[under]);
        at = under;
    }
    put(at, i);
}

static void heap_fill(void) {
    for (uint32_t i = 0; i < count; i++) {
        key[i] = (now += 100) + second;
        put(i, i);
    }
}

static struct ev_loop *ev;
static ev_timer ev_timers[MOST];

static void ev_ran(struct ev_loop *loop, ev_timer *timer, int events) {
    (void)loop, (void)timer, (void)events;
}

static void ev_rearm(uint32_t i) {
    static uint32_t calls;
    if (calls++ % 1024 == 0) ev_now_update(ev);
    ev_timer_again(ev, &ev_timers[i]);
}

static void ev_fill(void) {
    ev = ev_loop_new(0);
    for (uint32_t i = 0; i < count; i++) {
        ev_timer_init(&ev_timers[i], ev_ran, 1.0 + i * 1e-7, 1.0);
        ev_timer_start(ev, &ev_timers[i]);
    }
}

static uv_loop_t uv;
static uv_timer_t uv_timers[MOST];

static void uv_ran(uv_timer_t *timer) {
    (void)timer;
}

static void uv_rearm(uint32_t i) {
    uv_timer_again(&uv_timers[i]);
}

static void uv_fill(void) {
    uv_loop_init(&uv);
    for (uint32_t i = 0; i < count; i++) {
        uv_timer_init(&uv, &uv_timers[i]);
        uv_timer_start(&uv_timers[i], uv_ran, 1000, 1000);
    }
}

static const struct {
    const char *name;
    void (*fill)(void);
    void (*call)(uint32_t);
} kinds[] = {
    {"rearm", hrt_fill, hrt_rearm}, {"heap", heap_fill, heap_rearm}, {"libev", ev_fill, ev_rearm},
    {"libuv", uv_fill, uv_rearm},   {"peek", hrt_fill, look},        {"next", hrt_fill, next},
};

static double spent(void) {
    struct timespec t;
    clock_gettime(CLOCK_THREAD_CPUTIME_ID, &t);
    return (double)t.tv_sec * 1e9 + (double)t.tv_nsec;
}

int main(int words, char **word) {
    if (words != 4) return 2;
    count = (uint32_t)atoi(word[2]);
    const uint32_t times = (uint32_t)atoi(word[3]);
    for (size_t k = 0; k < sizeof kinds / sizeof *kinds; k++) {
        if (strcmp(word[1], kinds[k].name) != 0 || count == 0 || count > MOST) continue;
        kinds[k].fill();
        const double begun = spent();
        for (uint32_t i = 0; i < times; i++) kinds[k].call(any());
        printf("%s %u: %.1f\n", word[1], count, (spent() - begun) / times);
        return 0;
    }
    return 2;
}
