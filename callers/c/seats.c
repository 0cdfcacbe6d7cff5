/* Two seats of one thread: what each call tells, and each number below 0 by which a seat refuses. */
#include "hrt.h"

#include <inttypes.h>
#include <stdio.h>

static const hrt_declared declared[] = {{HRT_CLOCK_MONOTONIC, HRT_HARD}, {HRT_CLOCK_MONOTONIC, HRT_HARD}, {HRT_CLOCK_BOOTTIME, HRT_SOFT}};
static hrt_seat one = HRT_NO_SEAT, two = HRT_NO_SEAT;
static const hrt_time start = {.mono = 100}, later = {.mono = 150}, late = {0, ((uint64_t)1 << 62) + 1, 0};
static hrt_shared_answer a;

static void of_seats(void) {
    hrt_seat none = HRT_NO_SEAT;
    printf("no timers: %" PRId32 " %" PRId32, hrt_shared_leave(&one), hrt_shared_split(&one, &two));
    printf(" %" PRId32 " %" PRId32 "\n", hrt_shared_peek(&one, 0, &a), hrt_shared_next(&one, 0, &start, &a));
    printf("bases: %" PRId32 ", count: %" PRId32, hrt_shared_open(&one, 0, declared, 3, 9), hrt_shared_open(&one, 2, declared, HRT_MAX_SHARED + 1, 9));
    printf(", limit: %" PRId32 "\n", hrt_shared_open(&one, 2, declared, 3, 0));
    printf("open: %" PRId32, hrt_shared_open(&one, 2, declared, 3, 9));
    printf(" %" PRId32 "\n", hrt_shared_open(&one, 2, declared, 3, 9));
    printf("split: %" PRId32, hrt_shared_split(&one, &two));
    printf(" %" PRId32 " %" PRId32 "\n", hrt_shared_split(&one, &two), hrt_shared_split(&none, &two));
}

static void of_starts(void) {
    printf("start: %" PRId32, hrt_shared_start(&one, 0, HRT_MODE_REL, 20, 5, 0, &start, &a));
    printf(", expires %" PRIu64 ", moved %" PRIu32 ", first %" PRIu32 "\n", a.expires, a.moved, a.first);
    printf("start: %" PRId32, hrt_shared_start(&two, 1, HRT_MODE_REL, 40, 0, 0, &start, &a));
    printf(", expires %" PRIu64 ", moved %" PRIu32 ", first %" PRIu32 "\n", a.expires, a.moved, a.first);
    printf("start: %" PRId32, hrt_shared_start(&two, 1, HRT_MODE_REL, 40, 0, 1, &start, &a));
    printf(", base %" PRIu32 ", armed %" PRIu32 ", moved %" PRIu32 ", first %" PRIu32 ", number %" PRIu64 "\n", a.base, a.armed, a.moved, a.first, a.number);
    printf("next: %" PRId32, hrt_shared_next(&one, 1, &start, &a));
    printf(", wait %" PRIu64, a.wait);
    printf("; cancel: %" PRId32, hrt_shared_cancel(&one, 1, &a));
    printf("; next: %" PRId32 "\n", hrt_shared_next(&one, 1, &start, &a));
    printf("bad: %" PRId32 " %" PRId32, hrt_shared_start(&one, 3, 0, 0, 0, 0, &start, &a), hrt_shared_start(&one, 0, 0, 0, 0, 2, &start, &a));
    printf(" %" PRId32 " %" PRId32 "\n", hrt_shared_start(&one, 0, 3, 0, 0, 0, &start, &a), hrt_shared_start(&one, 0, 0, 0, 0, 0, &late, &a));
}

static void of_claims(void) {
    printf("claim: %" PRId32, hrt_shared_claim(&one, HRT_HARD, 0, &later, &a));
    printf(", timer %" PRIu32 ", number %" PRIu64, a.timer, a.number);
    printf("; a second one: %" PRId32 ", busy: %" PRId32 "\n", hrt_shared_claim(&one, HRT_HARD, 1, &later, &a), hrt_shared_claim(&two, HRT_HARD, 0, &later, &a));
    printf("its seat's: %" PRId32 " %" PRId32, hrt_shared_finish(&two, 0, 0, &a), hrt_shared_finish(&one, 1, 0, &a));
    printf(" %" PRId32 " %" PRId32 "\n", hrt_shared_leave(&one), hrt_shared_cancel(&two, 0, &a));
    printf("forward: %" PRId32, hrt_shared_forward(&one, 0, &later, 50, &a));
    printf(", count %" PRIu64 ", soft %" PRIu64 "\n", a.count, a.soft);
    printf("finish: %" PRId32, hrt_shared_finish(&one, 0, 1, &a));
    printf(" %" PRId32 "\n", hrt_shared_finish(&one, 0, 1, &a));
    printf("peek: %" PRId32, hrt_shared_peek(&two, 0, &a));
    printf(", armed %" PRIu32 ", running %" PRIu32 ", moving %" PRIu32 ", number %" PRIu64 "\n", a.armed, a.running, a.moving, a.number);
}

int main(void) {
    of_seats();
    of_starts();
    of_claims();
    printf("leave: %" PRId32 " %" PRId32, hrt_shared_leave(&one), hrt_shared_leave(&two));
    printf(" %" PRId32 "\n", hrt_shared_leave(&two));
    return 0;
}
