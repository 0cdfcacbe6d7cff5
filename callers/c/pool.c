/* Timers that come and go: a pool hands them out and takes them back. A handle has as many timers as it was made with, so the pool grows by
 * whole handles. Time is this program's own. 100,000 times a timer is handed out, by which each is used again and again. */
#include "hrt.h"

#include <inttypes.h>
#include <stdio.h>
#include <stdlib.h>

enum { TIMERS = 64, MAKES = 100000, HELD = 1000 };

/* A timer of the pool: what it is to do, whom it belongs to, and whether it was given back while its function ran. */
struct timer {
    void (*function)(struct timer *);
    void *data;
    uint32_t number;
    int given_back;
    struct block *block;
    struct timer *next_free;
};

/* A handle with its timers, which stay where they are. */
struct block {
    hrt_timers handle;
    struct timer timers[TIMERS];
    struct block *next;
};

static struct block *blocks;
static struct timer *free_ones;
static hrt_time now;

static int grow(void) {
    hrt_declared declared[TIMERS];
    struct block *block = malloc(sizeof *block);
    if (!block) return 0;
    block->handle = (hrt_timers)HRT_NONE;
    for (int i = 0; i < TIMERS; i++) declared[i] = (hrt_declared){HRT_CLOCK_MONOTONIC, HRT_HARD};
    if (hrt_new(&block->handle, 1, declared, TIMERS, HRT_MAX_EVENTS) != HRT_DONE) {
        free(block);
        return 0;
    }
    for (uint32_t i = TIMERS; i-- > 0;) {
        block->timers[i] = (struct timer){.number = i, .block = block, .next_free = free_ones};
        free_ones = &block->timers[i];
    }
    block->next = blocks;
    blocks = block;
    return 1;
}

/* A timer that isn't armed, or null where memory has run out. */
static struct timer *make(void (*function)(struct timer *), void *data) {
    if (!free_ones && !grow()) return NULL;
    struct timer *it = free_ones;
    free_ones = it->next_free;
    it->function = function;
    it->data = data;
    it->given_back = 0;
    return it;
}

static int32_t start(struct timer *it, uint64_t ns, hrt_answer *out) {
    return hrt_start(&it->block->handle, it->number, HRT_MODE_REL, ns, 0, 0, &now, out);
}

/* Takes a timer back: its function won't run afterwards. Where that runs now, the timer is free once that has returned. */
static void give_back(struct timer *it) {
    hrt_answer a;
    it->given_back = 1;
    if (hrt_cancel(&it->block->handle, it->number, &a) == HRT_RUNNING) return;
    it->next_free = free_ones;
    free_ones = it;
}

/* Runs the functions of all timers that are due. */
static void expire(void) {
    hrt_answer a;
    for (struct block *block = blocks; block; block = block->next) {
        while (hrt_claim(&block->handle, HRT_HARD, 0, &now, &a) == HRT_CLAIMED) {
            struct timer *it = &block->timers[a.timer];
            it->function(it);
            hrt_finish(&block->handle, it->number, 0, &a);
            if (it->given_back) give_back(it);
        }
    }
}

/* Lets time go on to where the next timer has to run; answers whether one is armed. */
static int sleep_until_next(void) {
    hrt_answer a;
    uint64_t least = UINT64_MAX;
    for (struct block *block = blocks; block; block = block->next)
        if (hrt_next(&block->handle, 0, &now, &a) == HRT_ARMED && a.wait < least) least = a.wait;
    if (least < UINT64_MAX) now.mono += least;
    return least < UINT64_MAX;
}

static void free_all(void) {
    while (blocks) {
        struct block *block = blocks;
        blocks = block->next;
        hrt_free(&block->handle);
        free(block);
    }
}

/* What has a timer for a while: it has it until the timer fires, or gives it back before. */
static struct owner {
    struct timer *timer;
    uint64_t expires;
} owners[HELD];
static uint64_t made, fired, given_back_before, off_time;
static uint32_t seed = 1;

static uint32_t below(uint32_t bound) {
    seed = seed * 1664525 + 1013904223;
    return (seed >> 8) % bound;
}

static void fire(struct timer *it) {
    struct owner *owner = it->data;
    off_time += owner->timer != it || now.mono != owner->expires;
    fired++;
    owner->timer = NULL;
    give_back(it); /* by its own function */
}

static int use(struct owner *owner) {
    hrt_answer a;
    if (owner->timer) {
        give_back(owner->timer);
        owner->timer = NULL;
        given_back_before++;
        return 1;
    }
    if (!(owner->timer = make(fire, owner))) return 0;
    made++;
    int32_t code = start(owner->timer, 1 + below(2000), &a);
    owner->expires = a.expires;
    return code == HRT_DONE;
}

int main(void) {
    unsigned count = 0;
    while (made < MAKES) {
        if (!use(&owners[below(HELD)])) return 1;
        if (below(8) == 0 && sleep_until_next()) expire();
    }
    while (sleep_until_next()) expire();
    for (struct block *block = blocks; block; block = block->next) count++;
    printf("made %" PRIu64 ", fired %" PRIu64 ", given back before %" PRIu64, made, fired, given_back_before);
    printf(", lost %" PRIu64 ", off their time %" PRIu64 ", handles %u\n", made - fired - given_back_before, off_time, count);
    free_all();
    return 0;
}
