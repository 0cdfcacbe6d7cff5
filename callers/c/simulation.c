/* A simulated device with three timers: a tick every 100 ns, a watchdog that each tick starts anew, and a deadline in the soft context
 * that stops the tick. Time is this program's own: it jumps to where the next timer has to run. */
#include "hrt.h"

#include <inttypes.h>
#include <stdio.h>

enum { TICK, WATCHDOG, DEADLINE, COUNT };

static hrt_timers timers = HRT_NONE;

static hrt_time at(uint64_t ns) {
    return (hrt_time){ns, 1000 + ns, ns};
}

static void start(uint32_t timer, uint32_t mode, uint64_t ns, uint64_t slack, uint64_t now) {
    hrt_answer a = {0};
    hrt_time t = at(now);
    int32_t code = hrt_start(&timers, timer, mode, ns, slack, 0, &t, &a);
    printf("%" PRIu64 ": start %" PRIu32 " = %" PRId32, now, timer, code);
    printf(", generation %" PRIu64 ", expires %" PRIu64 "\n", a.generation, a.expires);
}

/* What the function of each timer does; answers whether it is to be armed again. */
static uint32_t run(uint32_t timer, uint64_t now) {
    hrt_answer a = {0};
    hrt_time t = at(now);
    if (timer == TICK) {
        int32_t code = hrt_forward(&timers, TICK, &t, 100, &a);
        printf("%" PRIu64 ": forward = %" PRId32 ", count %" PRIu64 ", expires %" PRIu64 "\n", now, code, a.count, a.expires);
        start(WATCHDOG, HRT_MODE_REL, 150, 20, now);
        return 1;
    }
    if (timer == DEADLINE) {
        int32_t code = hrt_cancel(&timers, TICK, &a);
        printf("%" PRIu64 ": cancel tick = %" PRId32 ", generation %" PRIu64 "\n", now, code, a.generation);
        code = hrt_cancel(&timers, DEADLINE, &a);
        printf("%" PRIu64 ": cancel itself = %" PRId32, now, code);
        printf(", claim beside it = %" PRId32 "\n", hrt_claim(&timers, HRT_SOFT, 0, &t, &a));
    }
    return 0;
}

static void expire(uint32_t context, uint64_t now) {
    hrt_answer a = {0};
    hrt_time t = at(now);
    while (hrt_claim(&timers, context, 0, &t, &a) == HRT_CLAIMED) {
        uint32_t timer = a.timer;
        printf("%" PRIu64 ": claim %" PRIu32 ", generation %" PRIu64 ", base %" PRIu32, now, timer, a.generation, a.base);
        printf(", clock %" PRIu32 ", soft %" PRIu64 ", expires %" PRIu64 "\n", a.clock, a.soft, a.expires);
        uint32_t again = run(timer, now);
        int32_t code = hrt_finish(&timers, timer, again, &a);
        printf("%" PRIu64 ": finish %" PRIu32 " = %" PRId32 ", number %" PRIu64 "\n", now, timer, code, a.number);
    }
}

/* Sleeps from one expiry to the next, until no timer is armed. */
static void run_all(void) {
    hrt_answer a = {0};
    for (uint64_t now = 0;; now += a.wait) {
        hrt_time t = at(now);
        expire(HRT_HARD, now);
        expire(HRT_SOFT, now);
        int32_t code = hrt_next(&timers, 0, &t, &a);
        printf("%" PRIu64 ": next = %" PRId32 ", wait %" PRIu64 "\n", now, code, a.wait);
        if (code != HRT_ARMED) return;
    }
}

/* A timer that takes one entry, and takes no other. */
static void one_entry(void) {
    hrt_timers one = HRT_NONE;
    hrt_declared declared = {HRT_CLOCK_BOOTTIME, HRT_HARD};
    hrt_answer a = {0};
    hrt_time t = at(0);
    printf("one entry: %" PRId32, hrt_new(&one, 1, &declared, 1, 1));
    printf(" %" PRId32, hrt_start(&one, 0, HRT_MODE_REL, 5, 0, 0, &t, &a));
    printf(" %" PRId32 "\n", hrt_start(&one, 0, HRT_MODE_REL, 5, 0, 0, &t, &a));
    hrt_free(&one);
}

int main(void) {
    const hrt_declared hard = {HRT_CLOCK_MONOTONIC, HRT_HARD}, soft = {HRT_CLOCK_REALTIME, HRT_SOFT};
    const hrt_declared declared[COUNT] = {hard, hard, soft};
    printf("new = %" PRId32 "\n", hrt_new(&timers, 1, declared, COUNT, 1000));
    start(TICK, HRT_MODE_REL, 100, 0, 0);
    start(DEADLINE, HRT_MODE_ABS, 1360, 0, 0);
    run_all();
    hrt_answer a = {0};
    for (uint32_t timer = 0; timer < COUNT; timer++) {
        hrt_peek(&timers, timer, &a);
        printf("peek %" PRIu32 ": armed %" PRIu32 ", running %" PRIu32, timer, a.armed, a.running);
        printf(", number %" PRIu64 ", expires %" PRIu64 "\n", a.number, a.expires);
    }
    one_entry();
    printf("free = %" PRId32 "\n", hrt_free(&timers));
    return 0;
}
