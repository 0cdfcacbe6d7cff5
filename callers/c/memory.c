/* Where memory is taken: each allocation of hrt_new, hrt_shared_open, hrt_shared_split and hrt_check fails once, and the calls between make none. The linker sends malloc,
 * realloc and free of the library here: -Wl,--wrap=malloc,--wrap=realloc,--wrap=free. And declarations that are too many aren't read. */
#define _DEFAULT_SOURCE
#include "hrt.h"
#include "hrt_trace.h"

#include <inttypes.h>
#include <stdio.h>
#include <sys/mman.h>

void *__real_malloc(size_t size);
void *__real_realloc(void *at, size_t size);
void __real_free(void *at);

static int calls, held, failing;

static int fails(void) {
    return ++calls == failing;
}

void *__wrap_malloc(size_t size) {
    if (fails()) return NULL;
    held++;
    return __real_malloc(size);
}

void *__wrap_realloc(void *at, size_t size) {
    if (fails()) return NULL;
    if (!at) held++;
    return __real_realloc(at, size);
}

void __wrap_free(void *at) {
    if (at) held--;
    __real_free(at);
}

static hrt_timers timers = HRT_NONE;
enum { COUNT = 1000 };
static hrt_declared declared[COUNT];
static uint32_t seed = 1;

static uint32_t below(uint32_t bound) {
    seed = seed * 1664525 + 1013904223;
    return (seed >> 8) % bound;
}

static int32_t open_all(int fail_at) {
    calls = 0;
    failing = fail_at;
    int32_t code = hrt_new(&timers, 8, declared, COUNT, 1000);
    failing = 0;
    return code;
}

static void call_all(uint64_t ns) {
    hrt_answer a;
    hrt_time now = {ns, ns, ns};
    hrt_start(&timers, below(COUNT), below(3), ns + below(100), below(20), below(8), &now, &a);
    hrt_cancel(&timers, below(COUNT), &a);
    hrt_peek(&timers, below(COUNT), &a);
    hrt_next(&timers, below(8), &now, &a);
    if (hrt_claim(&timers, below(2), below(8), &now, &a) != HRT_CLAIMED) return;
    uint32_t timer = a.timer;
    hrt_forward(&timers, timer, &now, 5, &a);
    hrt_finish(&timers, timer, below(2), &a);
}

static hrt_seat seats[2];

static int32_t share_all(int fail_at) {
    calls = 0;
    failing = fail_at;
    int32_t code = hrt_shared_open(&seats[0], 8, declared, COUNT, 1000);
    failing = 0;
    return code;
}

static int32_t split(int fail_at) {
    calls = 0;
    failing = fail_at;
    int32_t code = hrt_shared_split(&seats[0], &seats[1]);
    failing = 0;
    return code;
}

static void call_shared(hrt_seat *seat, uint64_t ns) {
    hrt_shared_answer a;
    hrt_time now = {ns, ns, ns};
    hrt_shared_start(seat, below(COUNT), below(3), ns + below(100), below(20), below(8), &now, &a);
    hrt_shared_cancel(seat, below(COUNT), &a);
    hrt_shared_peek(seat, below(COUNT), &a);
    hrt_shared_next(seat, below(8), &now, &a);
    if (hrt_shared_claim(seat, below(2), below(8), &now, &a) != HRT_CLAIMED) return;
    uint32_t timer = a.timer;
    hrt_shared_forward(seat, timer, &now, 5, &a);
    hrt_shared_finish(seat, timer, below(2), &a);
}

/* The same of two seats: a split without memory leaves the first as it was. */
static void share(void) {
    int32_t code;
    int failed = 0, left = 0, before;
    while ((code = share_all(failed + 1)) == HRT_NO_MEMORY) {
        failed++;
        left += held + (seats[0].at != NULL);
    }
    printf("shared open = %" PRId32 ", each allocation failed once: %s, left behind: %d\n", code, failed > 0 ? "yes" : "no", left);
    failed = left = 0;
    for (before = held; (code = split(failed + 1)) == HRT_NO_MEMORY; failed++) left += held - before + (seats[1].at != NULL);
    printf("split = %" PRId32 ", each allocation failed once: %s, left behind: %d\n", code, failed > 0 ? "yes" : "no", left);
    calls = 0;
    for (uint64_t ns = 0; ns < 100000; ns++) call_shared(&seats[ns % 2], ns);
    printf("allocations of the other calls: %d\n", calls);
    code = hrt_shared_leave(&seats[0]);
    printf("leave = %" PRId32, code);
    printf(" %" PRId32, hrt_shared_leave(&seats[1]));
    printf(", left behind: %d\n", held);
}

/* A timer more than a handle may have. None of these declarations may be read. */
static void too_many(void) {
    size_t count = (size_t)HRT_MAX_TIMERS + 1, size = count * sizeof(hrt_declared);
    void *many = mmap(NULL, size, PROT_NONE, MAP_PRIVATE | MAP_ANONYMOUS | MAP_NORESERVE, -1, 0);
    if (many == MAP_FAILED) return;
    printf("too many: %" PRId32 "\n", hrt_new(&timers, 1, many, count, 1000));
    munmap(many, size);
}

/* A trace of three timers on two processors. */
static const char trace[] = "hrtimer_setup: hrtimer=a clockid=CLOCK_MONOTONIC mode=ABS\n"
                            "hrtimer_setup: hrtimer=b clockid=CLOCK_MONOTONIC mode=ABS\n"
                            "hrtimer_start: hrtimer=a expires=7 softexpires=7\n"
                            "hrtimer_start: hrtimer=b expires=8 softexpires=8\n"
                            "[1] d.h. 1: hrtimer_expire_entry: hrtimer=b now=9\n"
                            "[0] d.h. 1: hrtimer_expire_entry: hrtimer=a now=9\n"
                            "[1] d.h. 1: hrtimer_expire_exit: hrtimer=b\n"
                            "hrtimer_cancel: hrtimer=c\n";

static int32_t check(int fail_at, hrt_verdict *out) {
    calls = 0;
    failing = fail_at;
    int32_t code = hrt_check(trace, sizeof trace - 1, out);
    failing = 0;
    return code;
}

static void check_all(void) {
    hrt_verdict v = {.events = 77};
    int32_t code;
    int before = held, failed = 0, left = 0, changed = 0;
    while ((code = check(failed + 1, &v)) == HRT_NO_MEMORY) {
        failed++;
        left += held - before;
        changed += v.events != 77;
    }
    printf("check = %" PRId32 ", %" PRIu64 " events, each allocation failed once: %s", code, v.events, failed > 0 ? "yes" : "no");
    printf(", left behind: %d, out changed: %d\n", left + (held - before), changed);
}

int main(void) {
    static const uint32_t clocks[] = {HRT_CLOCK_MONOTONIC, HRT_CLOCK_REALTIME, HRT_CLOCK_BOOTTIME};
    for (uint32_t i = 0; i < COUNT; i++) declared[i] = (hrt_declared){clocks[i % 3], i / 3 % 2};
    int32_t code;
    int failed = 0, left = 0;
    while ((code = open_all(failed + 1)) == HRT_NO_MEMORY) {
        failed++;
        left += held + (timers.at != NULL);
    }
    printf("new = %" PRId32 ", each allocation failed once: %s, left behind: %d\n", code, failed > 0 ? "yes" : "no", left);
    calls = 0;
    for (uint64_t ns = 0; ns < 100000; ns++) call_all(ns);
    printf("allocations of the other calls: %d\n", calls);
    code = hrt_free(&timers);
    printf("free = %" PRId32 ", left behind: %d\n", code, held);
    share();
    too_many();
    check_all();
    return 0;
}
