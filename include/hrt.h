/* High-resolution timers: the exports of the library libhulayban (crate hulayban_c). hrt_new and its calls are for timers of one thread at a time,
 * hrt_shared_open and its calls for timers that threads share.
 *
 * Times are nanoseconds. A call never waits and reads no clock, and it calls no function of yours: hrt_next says how long you may sleep,
 * hrt_claim whose function is to run, you run it, and hrt_finish ends the run.
 *
 * Threads: one at a time may call by a handle or by a seat. Two handles have nothing in common, so each thread may have its own. Seats share timers:
 * each thread has a seat of its own, and their calls may run at the same time.
 * Null: no pointer may be null.
 * Aliasing: no pointer of a call may point into what another one of the same call points to.
 * Copies: a handle or a seat may lie anywhere, and may be moved as realloc moves it. Two copies that are both used would free one block twice.
 * Limits: HRT_MAX_BASES bases and HRT_MAX_TIMERS timers a handle, HRT_MAX_SHARED timers where threads share them, HRT_MAX_EVENTS entries a timer.
 *
 * Nothing checks the first four of these. Every other argument is tested: a bad one is answered by a number below 0, nothing changes, and
 * *out is left as it was. The arguments are tested in the order in which the comments name the numbers. docs/FROM_C.md says how to build and
 * link, and what is promised. The check of a kernel's own trace is in hrt_trace.h.
 */
#ifndef HRT_H
#define HRT_H

/* The library's version, that of the file VERSION. */
#define HRT_VERSION "0.1.0"

#include <stddef.h>
#include <stdint.h>

#ifdef __cplusplus
extern "C" {
#endif

/* What calls answer. */
enum {
    HRT_DONE = 0,         /* made. hrt_cancel: neither armed nor running. hrt_claim: no timer may run now. hrt_finish: not armed again by it.
                             hrt_next: no timer is armed */
    HRT_SPENT = 1,        /* the timer's limit on entries was reached: nothing has changed, but that hrt_finish ends the run */
    HRT_ARMED = 2,        /* hrt_forward: a start came in while the function ran; nothing has changed. hrt_next: a timer is armed */
    HRT_RUNNING = 3,      /* hrt_cancel: the timer's function runs; nothing has changed */
    HRT_BUSY = 4,         /* hrt_claim: a function of the context runs on the base; nothing has changed */
    HRT_CLAIMED = 5,      /* hrt_claim: the function of out->timer is to run */
    HRT_CANCELLED = 6,    /* hrt_cancel: the timer is off */
    HRT_AGAIN = 7,        /* hrt_finish: the timer is armed again */
    HRT_CONTENDED = 8,    /* on a seat: another seat took the base's lock; nothing has changed */
    HRT_MOVING = 9,       /* on a seat: the timer was on its way to another base, or came to one; nothing has changed */
    HRT_CARRIED = 10,     /* hrt_shared_start: the seat carries the timer to another base */

    HRT_NO_TIMERS = -1,   /* the handle or the seat has no timers */
    HRT_IN_USE = -2,      /* hrt_new, hrt_shared_open, hrt_shared_split: the handle or the seat has timers already */
    HRT_NO_MEMORY = -3,   /* the same, and hrt_check of hrt_trace.h: malloc gave none */
    HRT_BAD_TIMER = -4,   /* no timer has this number */
    HRT_BAD_BASE = -5,    /* no base has this number; hrt_new, hrt_shared_open: 1 to HRT_MAX_BASES bases */
    HRT_BAD_MODE = -6,    /* no mode has this number */
    HRT_BAD_TIME = -7,    /* a time of the reading is past 2^62 */
    HRT_BAD_CLOCK = -8,   /* no clock has this number */
    HRT_BAD_CONTEXT = -9, /* no context has this number */
    HRT_BAD_COUNT = -10,  /* hrt_new: at most HRT_MAX_TIMERS timers; hrt_shared_open: at most HRT_MAX_SHARED */
    HRT_BAD_LIMIT = -11,  /* hrt_new, hrt_shared_open: a limit from 1 to HRT_MAX_EVENTS */
    HRT_NOT_RUNNING = -12,/* hrt_forward, hrt_finish: the timer's function isn't running */
    HRT_CARRIES = -13,    /* the seat carries a timer: hrt_shared_start of that timer comes first */
    HRT_HOLDS_CLAIM = -14,/* hrt_shared_claim, hrt_shared_leave: the seat has a claim: hrt_shared_finish comes first */
    HRT_NOT_CLAIMED = -15 /* hrt_shared_forward, hrt_shared_finish: the seat has no claim of this timer */
};

/* The most bases and timers of a handle, timers that threads share, and entries of a timer. */
#define HRT_MAX_BASES 64
#define HRT_MAX_TIMERS 4294967295
#define HRT_MAX_SHARED 16777216
#define HRT_MAX_EVENTS 281474976710640

/* How a start gives its time: HRTIMER_MODE_ABS and HRTIMER_MODE_REL of Linux, and a time of the clock that the timer is kept on
 * (hrtimer_restart). */
enum { HRT_MODE_ABS = 0, HRT_MODE_REL = 1, HRT_MODE_KEEP = 2 };

/* The clocks, by their numbers in clock_gettime(2) of Linux. */
enum { HRT_CLOCK_REALTIME = 0, HRT_CLOCK_MONOTONIC = 1, HRT_CLOCK_BOOTTIME = 7 };

/* The contexts. One function of each runs on a base at a time. */
enum { HRT_HARD = 0, HRT_SOFT = 1 };

/* A handle. It begins as HRT_NONE, and is changed by calls alone. */
typedef struct hrt_timers {
    void *at;
} hrt_timers;
#define HRT_NONE { NULL }

/* How a timer is declared: a clock and a context. */
typedef struct hrt_declared {
    uint32_t clock, context;
} hrt_declared;

/* What the three clocks show now, each at most 2^62. */
typedef struct hrt_time {
    uint64_t mono, real, boot;
} hrt_time;

/* What a call tells beside its number. What its comment doesn't name is 0. */
typedef struct hrt_answer {
    uint32_t timer, base, clock, armed, running, moved;
    uint64_t generation, number, soft, expires, count, wait;
} hrt_answer;

/* Puts new timers behind a handle that has none: 1 to HRT_MAX_BASES bases, and at most HRT_MAX_TIMERS timers, numbered from 0 as they stand in
 * declared, which may not be null even where count is 0. At max_events entries, 1 to HRT_MAX_EVENTS, a timer takes no start, forward or restart
 * any more. It takes memory for all of them at once: some 96 bytes a timer, and 24 more for each base.
 * HRT_DONE; HRT_IN_USE, HRT_BAD_BASE, HRT_BAD_COUNT, HRT_BAD_LIMIT, HRT_BAD_CLOCK or HRT_BAD_CONTEXT of the first bad declaration,
 * HRT_NO_MEMORY. The only call on a handle that takes memory. */
int32_t hrt_new(hrt_timers *timers, uint32_t bases, const hrt_declared *declared, size_t count, uint64_t max_events);

/* Frees the timers of a handle, if it has any. The handle has none afterwards, and may be used again. HRT_DONE. */
int32_t hrt_free(hrt_timers *timers);

/* Arms a timer on a base (hrtimer_start_range_ns). ns is the soft expiry, by the mode; the expiry is slack later; both stop at 2^63 - 1.
 * HRT_DONE: timer, base, clock, soft and expires as it is kept, armed: 1 if it was armed before, moved: 1 if it came from another base,
 * generation: what is armed now, number: its entry. HRT_SPENT: timer, number: its count of entries.
 * HRT_NO_TIMERS, HRT_BAD_TIMER, HRT_BAD_BASE, HRT_BAD_MODE, HRT_BAD_TIME. */
int32_t hrt_start(hrt_timers *timers, uint32_t timer, uint32_t mode, uint64_t ns, uint64_t slack, uint32_t base, const hrt_time *now,
                  hrt_answer *out);

/* Disarms a timer, if its function isn't running (hrtimer_try_to_cancel).
 * HRT_CANCELLED: timer, generation, number of the entry. HRT_DONE: timer, number: its count of entries. HRT_RUNNING: timer, generation
 * that runs, number: its count of entries. HRT_NO_TIMERS, HRT_BAD_TIMER. */
int32_t hrt_cancel(hrt_timers *timers, uint32_t timer, hrt_answer *out);

/* Claims the timer of a context that is the next to expire on a base: its function is to run, until hrt_finish. That is the one with the earliest
 * expiry of its clock, from its soft expiry on; the monotonic clock is looked at first, then real time, then boot time.
 * HRT_CLAIMED: timer, base, clock, generation, number of the entry, soft and expires. HRT_BUSY: timer and generation whose function runs there.
 * HRT_DONE: no timer of the context may run now: each clock has none there, or the one with its earliest expiry hasn't reached its soft expiry.
 * Behind that one others of the clock wait, though their soft expiry may be reached; none there has reached its expiry.
 * HRT_NO_TIMERS, HRT_BAD_BASE, HRT_BAD_CONTEXT, HRT_BAD_TIME. */
int32_t hrt_claim(hrt_timers *timers, uint32_t context, uint32_t base, const hrt_time *now, hrt_answer *out);

/* Moves the expiry of a timer whose function runs past now by whole intervals (hrtimer_forward); an interval of 0 counts as 1. It arms
 * nothing. HRT_DONE: timer, number of the entry, count of intervals, soft and expires. HRT_SPENT: timer, number: its count of entries.
 * HRT_ARMED: timer, generation that is armed, number: its count of entries.
 * HRT_NO_TIMERS, HRT_BAD_TIMER, HRT_NOT_RUNNING, HRT_BAD_TIME. */
int32_t hrt_forward(hrt_timers *timers, uint32_t timer, const hrt_time *now, uint64_t interval, hrt_answer *out);

/* Ends the run of a timer's function; restart, any number but 0, asks that the timer is armed again, at the expiry that it has.
 * HRT_DONE, HRT_AGAIN, HRT_SPENT: timer, number of the entry; HRT_AGAIN: generation that is armed now.
 * HRT_NO_TIMERS, HRT_BAD_TIMER, HRT_NOT_RUNNING. */
int32_t hrt_finish(hrt_timers *timers, uint32_t timer, uint32_t restart, hrt_answer *out);

/* How long a base may be left alone: the least time from now on that a timer which is armed there, of either context, still has to its expiry on
 * its own clock; 0 where one has reached it. When each clock has gone on so far, hrt_claim doesn't answer HRT_DONE in both contexts, if no call
 * came in between. Before that it may claim a timer whose soft expiry is reached: slack is there so that one sleep serves several. Ask again when
 * real time was set, and when a start or a finish has armed a timer.
 * HRT_ARMED: wait. HRT_DONE: no timer is armed there. HRT_NO_TIMERS, HRT_BAD_BASE, HRT_BAD_TIME. */
int32_t hrt_next(hrt_timers *timers, uint32_t base, const hrt_time *now, hrt_answer *out);

/* How a timer is kept. HRT_DONE: timer, base, clock, armed and running: 1 if so, generation that is armed or 0, number: its count of
 * entries, soft, expires. HRT_NO_TIMERS, HRT_BAD_TIMER. */
int32_t hrt_peek(hrt_timers *timers, uint32_t timer, hrt_answer *out);

/* ---- timers that threads share
 *
 * hrt_shared_open makes them, with the first seat; hrt_shared_split makes a seat for each other thread, and hrt_shared_leave gives one back. Each base
 * has a lock of its own. A call tries a lock once: where another seat has it, nothing has changed, and the call answers so. Call again then, after
 * hrt_pause; that a call ever gets the lock is nobody's promise. hrt_again says which answers ask for that:
 *
 *     for (uint32_t tries = 0; hrt_again(number = hrt_shared_cancel(&seat, timer, &answer)); ) hrt_pause(tries++);
 *
 * A seat has at most one claim: the thread that claimed a timer runs its function, and finishes it by the same seat. While it runs the thread may
 * start and cancel. A start that has to go to another base takes the timer off the one base, and starts it on the other. Where it doesn't get
 * the second lock it answers HRT_CARRIED: the seat has the timer between the two. Call hrt_shared_start again with the same timer, and nothing
 * else by this seat: it is all that is answered, until the timer has arrived. A thread that stops with a claim, or with a timer that it carries,
 * blocks that timer for the others, and with a claim its base for other claims in that context.
 *
 * A signal handler may not call, nor the child of a fork. */

/* A seat of one thread. It begins as HRT_NO_SEAT, and is changed by calls alone. */
typedef struct hrt_seat {
    void *at;
} hrt_seat;
#define HRT_NO_SEAT { NULL }

/* What a call on a seat tells beside its number. What its comment doesn't name is 0. */
typedef struct hrt_shared_answer {
    uint32_t timer, base, clock, armed, running, moving, moved, first;
    uint64_t generation, number, soft, expires, count, wait;
} hrt_shared_answer;

/* Whether an answer asks to call again: nothing has changed, or a timer is carried. */
static inline int hrt_again(int32_t number) {
    return number >= HRT_CONTENDED;
}

/* A pause before the next try, longer from try to try: 1 to 1,024 turns of the processor's own pause. */
static inline void hrt_pause(uint32_t tries) {
    for (uint32_t turns = 1u << (tries < 10 ? tries : 10); turns; turns--) __asm__ __volatile__("pause");
}

/* Makes timers that threads share, and the first seat at them, as hrt_new does, but with at most HRT_MAX_SHARED timers. It takes memory for all of
 * them at once.
 * HRT_DONE; HRT_IN_USE, HRT_BAD_BASE, HRT_BAD_COUNT, HRT_BAD_LIMIT, HRT_BAD_CLOCK or HRT_BAD_CONTEXT of the first bad declaration,
 * HRT_NO_MEMORY. */
int32_t hrt_shared_open(hrt_seat *seat, uint32_t bases, const hrt_declared *declared, size_t count, uint64_t max_events);

/* Makes one more seat at the timers of a seat, behind new_seat, which has none. Hand it to its thread by something that orders memory, as the thread's
 * start. HRT_DONE; HRT_NO_TIMERS, HRT_IN_USE of new_seat, HRT_CARRIES, HRT_NO_MEMORY: no seat was made. */
int32_t hrt_shared_split(hrt_seat *seat, hrt_seat *new_seat);

/* Gives a seat back; the last one of its timers frees them. Seats may go in any order. HRT_DONE; HRT_NO_TIMERS, HRT_CARRIES, HRT_HOLDS_CLAIM. */
int32_t hrt_shared_leave(hrt_seat *seat);

/* Arms a timer on a base, as hrt_start.
 * HRT_DONE: timer, base, clock, soft and expires as it is kept, armed: 1 if it was armed before, moved: 1 if it came from another base, generation
 * and number of the entry, first: 1 if it now leads the queue of its context and clock there, so that whoever sleeps by hrt_shared_next of that
 * base has to be woken. A timer whose function runs keeps its base. HRT_SPENT: timer, number: its count of entries.
 * Call again at HRT_CONTENDED: timer and base; HRT_MOVING: timer and the base where it goes, or with moved: 1 where it had come; HRT_CARRIED: timer
 * and the base where it goes. A call for a timer that this seat carries asks for that base, whichever it names.
 * HRT_NO_TIMERS, HRT_BAD_TIMER, HRT_BAD_BASE, HRT_BAD_MODE, HRT_BAD_TIME, HRT_CARRIES: another timer. */
int32_t hrt_shared_start(hrt_seat *seat, uint32_t timer, uint32_t mode, uint64_t ns, uint64_t slack, uint32_t base, const hrt_time *now,
                         hrt_shared_answer *out);

/* Disarms a timer, if its function isn't running, as hrt_cancel.
 * HRT_CANCELLED, HRT_DONE, HRT_RUNNING: as hrt_cancel. Call again at HRT_CONTENDED, HRT_MOVING: as hrt_shared_start.
 * HRT_NO_TIMERS, HRT_BAD_TIMER, HRT_CARRIES. */
int32_t hrt_shared_cancel(hrt_seat *seat, uint32_t timer, hrt_shared_answer *out);

/* Claims the timer of a context that is the next to expire on a base, as hrt_claim. The seat has the claim, until hrt_shared_finish.
 * HRT_CLAIMED: timer, base, generation, number of the entry. HRT_BUSY: timer and generation whose function runs there. HRT_DONE: no timer of the
 * context may run now. Call again at HRT_CONTENDED: base.
 * HRT_NO_TIMERS, HRT_BAD_BASE, HRT_BAD_CONTEXT, HRT_BAD_TIME, HRT_CARRIES, HRT_HOLDS_CLAIM. */
int32_t hrt_shared_claim(hrt_seat *seat, uint32_t context, uint32_t base, const hrt_time *now, hrt_shared_answer *out);

/* Moves the expiry of the timer of the seat's claim, as hrt_forward. HRT_DONE, HRT_SPENT, HRT_ARMED: as hrt_forward. Call again at HRT_CONTENDED:
 * timer and base. HRT_NO_TIMERS, HRT_BAD_TIMER, HRT_NOT_CLAIMED, HRT_BAD_TIME, HRT_CARRIES. */
int32_t hrt_shared_forward(hrt_seat *seat, uint32_t timer, const hrt_time *now, uint64_t interval, hrt_shared_answer *out);

/* Ends the run of the function of the seat's claim, as hrt_finish. HRT_DONE, HRT_AGAIN, HRT_SPENT: as hrt_finish; the seat has no claim any more.
 * Call again at HRT_CONTENDED: timer and base; the seat still has the claim. A timer that is armed again may be the first of its base: whoever
 * sleeps there has to be woken. HRT_NO_TIMERS, HRT_BAD_TIMER, HRT_NOT_CLAIMED, HRT_CARRIES. */
int32_t hrt_shared_finish(hrt_seat *seat, uint32_t timer, uint32_t restart, hrt_shared_answer *out);

/* How long this thread may leave a base alone, as hrt_next. It looks at each of the base's six queues, of both contexts and all clocks, one after
 * another, each at a moment of its own, and tells the least wait. What is started meanwhile it may not show: a start that answers first: 1 tells
 * whom to wake. HRT_ARMED: wait. HRT_DONE: each look found no timer. Call again at HRT_CONTENDED: base.
 * HRT_NO_TIMERS, HRT_BAD_BASE, HRT_BAD_TIME, HRT_CARRIES. */
int32_t hrt_shared_next(hrt_seat *seat, uint32_t base, const hrt_time *now, hrt_shared_answer *out);

/* How a timer is, by one look at a word, which no lock holds up. HRT_DONE: timer, base, armed, running and moving: 1 if so, number: its count of
 * entries. HRT_NO_TIMERS, HRT_BAD_TIMER, HRT_CARRIES. */
int32_t hrt_shared_peek(hrt_seat *seat, uint32_t timer, hrt_shared_answer *out);

#ifdef __cplusplus
}
#endif
#endif
