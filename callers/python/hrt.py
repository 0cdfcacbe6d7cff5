"""The declarations of hrt.h, by ctypes, over the shared object libhulayban.so.0."""
from ctypes import CDLL, POINTER, Structure, byref, c_int32, c_size_t, c_uint32, c_uint64, c_void_p
from time import sleep

DONE, ARMED, CLAIMED, CANCELLED, AGAIN, CONTENDED = 0, 2, 5, 6, 7, 8
ABS, REL, KEEP = 0, 1, 2
REALTIME, MONOTONIC, BOOTTIME = 0, 1, 7
HARD, SOFT = 0, 1
MAX_BASES, MAX_SHARED, MAX_EVENTS = 64, 2**24, 2**48 - 16


class Handle(Structure):
    _fields_ = [("at", c_void_p)]


class Declared(Structure):
    _fields_ = [("clock", c_uint32), ("context", c_uint32)]


class Time(Structure):
    _fields_ = [(name, c_uint64) for name in ("mono", "real", "boot")]


class Answer(Structure):
    _fields_ = [(name, c_uint32) for name in ("timer", "base", "clock", "armed", "running", "moved")] + [
        (name, c_uint64) for name in ("generation", "number", "soft", "expires", "count", "wait")
    ]


class SharedAnswer(Structure):
    _fields_ = [(name, c_uint32) for name in ("timer", "base", "clock", "armed", "running", "moving", "moved", "first")] + [
        (name, c_uint64) for name in ("generation", "number", "soft", "expires", "count", "wait")
    ]


def typed_library(library, prefix, out, opens):
    """The library, with the types of the arguments of its calls whose names begin with prefix: opens, and those that both kinds of handle have. They write
    their answer into an out."""
    hrt, u32, u64, now = CDLL(library), c_uint32, c_uint64, POINTER(Time)
    kinds = {
        "start": [u32, u32, u64, u64, u32, now, out],
        "cancel": [u32, out],
        "claim": [u32, u32, now, out],
        "forward": [u32, now, u64, out],
        "finish": [u32, u32, out],
        "next": [u32, now, out],
        "peek": [u32, out],
    }
    for name, kind in {**opens, **kinds}.items():
        call = getattr(hrt, prefix + name)
        call.argtypes, call.restype = [POINTER(Handle)] + kind, c_int32
    return hrt


class Timers:
    """A handle. Each call answers its number and, but for open and free, writes into an Answer. One thread at a time: ctypes lets go of
    the interpreter's lock during a call."""

    def __init__(self, library):
        opens = {"new": [c_uint32, POINTER(Declared), c_size_t, c_uint64], "free": []}
        self.hrt, self.handle = typed_library(library, "hrt_", POINTER(Answer), opens), Handle()

    def open(self, bases, declared, max_events):
        array = (Declared * max(len(declared), 1))(*declared)
        return self.hrt.hrt_new(byref(self.handle), bases, array, len(declared), max_events)

    def free(self):
        return self.hrt.hrt_free(byref(self.handle))

    def start(self, timer, mode, ns, slack, base, now, out):
        return self.hrt.hrt_start(byref(self.handle), timer, mode, ns, slack, base, byref(now), byref(out))

    def cancel(self, timer, out):
        return self.hrt.hrt_cancel(byref(self.handle), timer, byref(out))

    def claim(self, context, base, now, out):
        return self.hrt.hrt_claim(byref(self.handle), context, base, byref(now), byref(out))

    def forward(self, timer, now, interval, out):
        return self.hrt.hrt_forward(byref(self.handle), timer, byref(now), interval, byref(out))

    def finish(self, timer, restart, out):
        return self.hrt.hrt_finish(byref(self.handle), timer, int(restart), byref(out))

    def next(self, base, now, out):
        return self.hrt.hrt_next(byref(self.handle), base, byref(now), byref(out))

    def peek(self, timer, out):
        return self.hrt.hrt_peek(byref(self.handle), timer, byref(out))


class Seat:
    """A seat of one thread at timers that threads share. Each call answers its number and, but for open, split and leave, writes into a SharedAnswer. One
    that is to be made again, by hrt_again, is made again, after a pause that grows. One thread at a time on a seat; calls of two seats run beside each other,
    since ctypes lets go of the interpreter's lock during a call."""

    def __init__(self, library):
        opens = {"open": [c_uint32, POINTER(Declared), c_size_t, c_uint64], "split": [POINTER(Handle)], "leave": []}
        self.hrt, self.handle = typed_library(library, "hrt_shared_", POINTER(SharedAnswer), opens), Handle()

    def _until_done(self, call, *arguments):
        tries = 0
        while (code := call(byref(self.handle), *arguments)) >= CONTENDED:
            sleep(min(tries, 100) * 1e-6)
            tries += 1
        return code

    def open(self, bases, declared, max_events):
        array = (Declared * max(len(declared), 1))(*declared)
        return self.hrt.hrt_shared_open(byref(self.handle), bases, array, len(declared), max_events)

    def split(self, new_seat):
        return self.hrt.hrt_shared_split(byref(self.handle), byref(new_seat.handle))

    def leave(self):
        return self.hrt.hrt_shared_leave(byref(self.handle))

    def start(self, timer, mode, ns, slack, base, now, out):
        return self._until_done(self.hrt.hrt_shared_start, timer, mode, ns, slack, base, byref(now), byref(out))

    def cancel(self, timer, out):
        return self._until_done(self.hrt.hrt_shared_cancel, timer, byref(out))

    def claim(self, context, base, now, out):
        return self._until_done(self.hrt.hrt_shared_claim, context, base, byref(now), byref(out))

    def forward(self, timer, now, interval, out):
        return self._until_done(self.hrt.hrt_shared_forward, timer, byref(now), interval, byref(out))

    def finish(self, timer, restart, out):
        return self._until_done(self.hrt.hrt_shared_finish, timer, int(restart), byref(out))

    def next(self, base, now, out):
        return self._until_done(self.hrt.hrt_shared_next, base, byref(now), byref(out))

    def peek(self, timer, out):
        return self._until_done(self.hrt.hrt_shared_peek, timer, byref(out))
