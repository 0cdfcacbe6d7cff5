"""The declarations of hrt_trace.h, by ctypes, over the shared object libhulayban_trace.so.0."""
from ctypes import CDLL, POINTER, Structure, byref, c_char_p, c_int32, c_size_t, c_uint32, c_uint64

FITS, MISFIT, UNREADABLE, NO_EVENTS = 8, 9, 10, 11


class Verdict(Structure):
    _fields_ = [(name, c_uint64) for name in ("line", "events", "timers", "processors", "soft", "now", "timer")] + [("cause", c_uint32)]


def check(library, text, out):
    """Checks a trace, which is bytes, and answers the number of hrt_check."""
    call = CDLL(library).hrt_check
    call.argtypes, call.restype = [c_char_p, c_size_t, POINTER(Verdict)], c_int32
    return call(text, len(text), byref(out))
