/* Arguments that are bad, each told by its number: nothing changes then. */
#include "hrt.h"

#include <inttypes.h>
#include <stdio.h>

static const hrt_declared declared[] = {{HRT_CLOCK_MONOTONIC, HRT_HARD}, {HRT_CLOCK_REALTIME, HRT_SOFT}};
static hrt_timers timers = HRT_NONE;

static void of_new(void) {
    hrt_timers none = HRT_NONE;
    hrt_declared clock = {2, 0}, context = {1, 2};
    printf("in use: %" PRId32 "\n", hrt_new(&timers, 1, declared, 2, 100));
    printf("bases: %" PRId32 " %" PRId32 "\n", hrt_new(&none, 0, declared, 2, 100), hrt_new(&none, HRT_MAX_BASES + 1, declared, 2, 100));
    printf("limit: %" PRId32, hrt_new(&none, 1, declared, 2, 0));
    printf(" %" PRId32 "\n", hrt_new(&none, 1, declared, 2, HRT_MAX_EVENTS + 1));
    printf("clock: %" PRId32 ", context: %" PRId32 "\n", hrt_new(&none, 1, &clock, 1, 100), hrt_new(&none, 1, &context, 1, 100));
    printf("still none: %d\n", none.at == NULL);
}

static void of_calls(void) {
    hrt_timers none = HRT_NONE;
    hrt_answer a = {.count = 77};
    hrt_time t = {0}, late = {0, ((uint64_t)1 << 62) + 1, 0};
    printf("no timers: %" PRId32 " %" PRId32 "\n", hrt_peek(&none, 0, &a), hrt_next(&none, 0, &t, &a));
    printf("timer: %" PRId32 "\n", hrt_start(&timers, 2, HRT_MODE_REL, 1, 0, 0, &t, &a));
    printf("base: %" PRId32 " %" PRId32 "\n", hrt_start(&timers, 0, HRT_MODE_REL, 1, 0, 1, &t, &a), hrt_next(&timers, 1, &t, &a));
    printf("mode: %" PRId32 "\n", hrt_start(&timers, 0, 3, 1, 0, 0, &t, &a));
    printf("time: %" PRId32 " %" PRId32 "\n", hrt_start(&timers, 0, HRT_MODE_REL, 1, 0, 0, &late, &a), hrt_next(&timers, 0, &late, &a));
    printf("context: %" PRId32 "\n", hrt_claim(&timers, 2, 0, &t, &a));
    printf("not running: %" PRId32 " %" PRId32 "\n", hrt_forward(&timers, 0, &t, 1, &a), hrt_finish(&timers, 0, 0, &a));
    printf("untouched: %" PRIu64 "\n", a.count);
}

int main(void) {
    printf("new: %" PRId32 "\n", hrt_new(&timers, 1, declared, 2, 1000));
    of_new();
    of_calls();
    printf("free: %" PRId32, hrt_free(&timers));
    printf(" %" PRId32 "\n", hrt_free(&timers));
    return 0;
}
