//! Whether a trace of a Linux kernel's own timers is a history that the model gives: the declarations of `hrt_trace.h`.
use crate::Refusal;

/// What the check tells.
#[derive(Clone, Copy, Debug, PartialEq, Eq)]
pub enum Verdict {
    /// The trace fits; how many events it has, how many timers they name, and how many processors expiries and returns name.
    Fits {
        events: u64,
        timers: u64,
        processors: u64,
    },
    /// With this line, counted from 1, no history shows the lines so far. `cause` is one of `HRT_CAUSE_..` of the header.
    Misfit {
        line: u64,
        cause: u32,
        soft: u64,
        now: u64,
        timer: u64,
    },
    /// This line can't be read; all before it fit.
    Unreadable { line: u64, cause: u32 },
    /// No line tells an event of a timer, so nothing was checked.
    NoEvents { cause: u32 },
}

#[repr(C)]
#[derive(Default)]
struct Raw {
    line: u64,
    events: u64,
    timers: u64,
    processors: u64,
    soft: u64,
    now: u64,
    timer: u64,
    cause: u32,
}

unsafe extern "C" {
    fn hrt_check(text: *const u8, length: usize, out: &mut Raw) -> i32;
}

/// Checks a trace, which may be any bytes. `Refusal::NoMemory` is the one refusal.
pub fn check(text: &[u8]) -> Result<Verdict, Refusal> {
    let mut it = Raw::default();
    // SAFETY: a slice's pointer isn't null and has its length, and `it` lies elsewhere.
    let code = unsafe { hrt_check(text.as_ptr(), text.len(), &mut it) };
    match code {
        8 => Ok(Verdict::Fits {
            events: it.events,
            timers: it.timers,
            processors: it.processors,
        }),
        9 => Ok(Verdict::Misfit {
            line: it.line,
            cause: it.cause,
            soft: it.soft,
            now: it.now,
            timer: it.timer,
        }),
        10 => Ok(Verdict::Unreadable {
            line: it.line,
            cause: it.cause,
        }),
        11 => Ok(Verdict::NoEvents { cause: it.cause }),
        code => Err(Refusal::of(code)),
    }
}
