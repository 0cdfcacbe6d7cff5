/* The check of a Linux kernel's own timer trace: the export of the library libhulayban_trace (crate hulayban_trace).
 *
 * Threads: any number of them may call at once, as there is no handle.
 * Null: no pointer may be null. Aliasing: out may not point into the text.
 * docs/FROM_C.md says how to build and link, and what is promised; docs/TRACES.md how to record a trace.
 */
#ifndef HRT_TRACE_H
#define HRT_TRACE_H

#include "hrt.h" /* HRT_NO_MEMORY */

#ifdef __cplusplus
extern "C" {
#endif

/* What the check answers, or HRT_NO_MEMORY. */
enum {
    HRT_FITS = 8,        /* the trace is a history that the model gives */
    HRT_MISFIT = 9,      /* with a line of it no history shows the lines so far */
    HRT_UNREADABLE = 10, /* a line of a timer's event can't be read */
    HRT_NO_EVENTS = 11   /* no line tells an event of a timer */
};

/* What is wrong with a line of a trace (docs/TRACES.md): with it no history shows the lines so far, or, from 101 on, it can't be read; and what is
 * wrong with a whole text. */
enum {
    HRT_CAUSE_SET_UP_ARMED = 1,      /* sets up a timer that is armed */
    HRT_CAUSE_SET_UP_RUNNING = 2,    /* sets up a timer whose function runs */
    HRT_CAUSE_SOFT_AFTER_HARD = 3,   /* starts a timer whose soft expiry is later than its hard one */
    HRT_CAUSE_PAST_TIME = 4,         /* never comes of a text: no time in one is past 2^63 - 1 */
    HRT_CAUSE_WAS_NOT_ARMED = 5,     /* a start tells that its timer was armed, and it wasn't */
    HRT_CAUSE_WAS_ARMED = 6,         /* a start tells that its timer wasn't armed, and it was */
    HRT_CAUSE_NOT_ARMED = 7,         /* cancels a timer that isn't armed, or it expires */
    HRT_CAUSE_RUNNING = 8,           /* cancels a timer whose function runs, or it expires meanwhile */
    HRT_CAUSE_OTHER_PROCESSOR = 9,   /* an expiry on another processor than the timer was armed on by its function */
    HRT_CAUSE_OTHER_CONTEXT = 10,    /* an expiry, or a function's return, in another context than the timer's */
    HRT_CAUSE_TOO_EARLY = 11,        /* an expiry at now, before the soft expiry, soft */
    HRT_CAUSE_SECOND_FUNCTION = 12,  /* a function begins where that of the timer at the address timer runs, which isn't soft, or it isn't hard */
    HRT_CAUSE_OUT_OF_ORDER = 13,     /* an expiry behind one of the same queue that had to wait for it */
    HRT_CAUSE_NOT_RUNNING = 14,      /* a function returns that doesn't run there */

    HRT_CAUSE_NO_HRTIMER = 101,      /* hrtimer= and an address in hexadecimal */
    HRT_CAUSE_NO_PROCESSOR = 102,    /* [N] before the event's name */
    HRT_CAUSE_NO_CLOCKID = 103,      /* clockid= */
    HRT_CAUSE_NO_MODE = 104,         /* mode= and one that is known */
    HRT_CAUSE_NO_SOFTEXPIRES = 105,  /* softexpires= and a time up to 2^63 - 1 */
    HRT_CAUSE_NO_EXPIRES = 106,      /* expires= and such a time */
    HRT_CAUSE_NO_WAS_ARMED = 107,    /* was_armed= is there, and neither 0 nor 1 behind it */
    HRT_CAUSE_NO_NOW = 108,          /* now= and a time up to 2^63 - 1 */

    HRT_CAUSE_NO_TIMER_EVENTS = 201  /* no line tells an event of a timer */
};

/* What the check of a trace tells beside its number. What its comment doesn't name is 0. */
typedef struct hrt_verdict {
    uint64_t line, events, timers, processors, soft, now, timer;
    uint32_t cause;
} hrt_verdict;

/* Checks a trace of a Linux kernel's own timers, as tracefs, trace-cmd and perf print it: whether it is a history that the model gives. text is
 * length bytes, and may be any; it may not be null even where length is 0. It needs no handle, and several threads may call at once.
 * HRT_FITS: events, timers that they name, and processors that expiries and returns name. HRT_MISFIT: line, from 1 on: the first with which no
 * history shows the lines so far, and cause; with HRT_CAUSE_TOO_EARLY soft and now too, and with HRT_CAUSE_SECOND_FUNCTION timer. HRT_UNREADABLE:
 * line, the first that can't be read, all before it fit; and cause. HRT_NO_EVENTS: cause; all lines can be read and none tells an event of a timer,
 * so that nothing was checked: a text of another kind, or a trace of other events. HRT_NO_MEMORY, and *out is left as it was. Memory goes with the
 * bytes of the text, whatever numbers stand in it (docs/TRACES.md has the bound). */
int32_t hrt_check(const void *text, size_t length, hrt_verdict *out);

#ifdef __cplusplus
}
#endif
#endif
