//! High-resolution timers of one thread ([`Timers`]), and timers that threads share ([`shared::Seat`]), over the proved static library `libhulayban.a`. What is proved is proved of the calls of `hrt.h`; these types
//! keep what the header asks of its caller, so that every call here is safe: references are never null and never alias, a handle is never copied, and
//! each other argument is tested by the call.
//!
//! ```no_run
//! # use hulayban::{Claimed, Clock, Context, Declared, Expiry, Refusal, Time, Timers};
//! # fn main() -> Result<(), Refusal> {
//! let declared = [Declared { clock: Clock::Monotonic, context: Context::Hard }];
//! let mut timers = Timers::new(1, &declared, hulayban::MAX_EVENTS)?;
//! let mut now = Time::default();
//! timers.start(0, Expiry::In(100), 0, 0, &now)?;
//! while let Some(wait) = timers.next(0, &now)? {
//!     now.mono += wait; // a program on a real clock sleeps here
//!     while let Claimed::Timer(claim) = timers.claim(Context::Hard, 0, &now)? {
//!         println!("timer {} has come due", claim.timer);
//!     } // the claim is dropped, which ends its run
//! }
//! # Ok(())
//! # }
//! ```
mod answers;
mod claim;
pub mod raw;
pub mod shared;
#[cfg(feature = "trace")]
pub mod trace;

pub use answers::{Cancel, Finish, Forward, Peek, Refusal, Start};
pub use claim::{Claim, Claimed};
use raw::{Answer, Handle};

/// The most bases and timers of one `Timers`, and entries of a timer.
pub const MAX_BASES: u32 = 64;
pub const MAX_TIMERS: usize = 4_294_967_295;
/// The most timers that threads share.
pub const MAX_SHARED: usize = 16_777_216;
pub const MAX_EVENTS: u64 = 281_474_976_710_640;

/// A clock, by its number in clock_gettime(2) of Linux.
#[repr(u32)]
#[derive(Clone, Copy, Debug, PartialEq, Eq)]
pub enum Clock {
    Realtime = 0,
    Monotonic = 1,
    Boottime = 7,
}

/// Where a timer's function runs. One function of each context runs on a base at a time.
#[repr(u32)]
#[derive(Clone, Copy, Debug, PartialEq, Eq)]
pub enum Context {
    Hard = 0,
    Soft = 1,
}

/// How a timer is declared.
#[derive(Clone, Copy, Debug, PartialEq, Eq)]
pub struct Declared {
    pub clock: Clock,
    pub context: Context,
}

/// What the three clocks show now, in nanoseconds, each at most 2^62. A clock that no timer is of may show anything.
#[repr(C)]
#[derive(Clone, Copy, Debug, Default, PartialEq, Eq)]
pub struct Time {
    pub mono: u64,
    pub real: u64,
    pub boot: u64,
}

/// When a start's timer is to expire, in nanoseconds.
#[derive(Clone, Copy, Debug, PartialEq, Eq)]
pub enum Expiry {
    /// At a time of the clock that the timer was declared for.
    At(u64),
    /// So long from now on.
    In(u64),
    /// At a time of the clock that the timer is kept on (`hrtimer_restart`).
    Kept(u64),
}

impl Expiry {
    /// The number of its mode in C, and its time.
    fn numbers(self) -> (u32, u64) {
        match self {
            Expiry::At(ns) => (0, ns),
            Expiry::In(ns) => (1, ns),
            Expiry::Kept(ns) => (2, ns),
        }
    }
}

/// Timers of one thread, numbered from 0 in the order in which they were declared. It is neither `Send` nor `Sync`, and frees its timers when it is
/// dropped.
#[derive(Debug)]
pub struct Timers(Handle);

impl Timers {
    /// Timers on so many bases. At `max_events` entries a timer takes no start, forward or restart any more.
    pub fn new(bases: u32, declared: &[Declared], max_events: u64) -> Result<Timers, Refusal> {
        let declared: Vec<raw::Declared> = declared.iter().map(|&it| it.into()).collect();
        let mut timers = Timers(Handle::NONE);
        // SAFETY: the pointer of a Vec isn't null and has as many declarations as the Vec is long.
        let code = unsafe {
            raw::hrt_new(
                &mut timers.0,
                bases,
                declared.as_ptr(),
                declared.len(),
                max_events,
            )
        };
        if code < 0 {
            return Err(Refusal::of(code));
        }
        Ok(timers)
    }

    /// Arms a timer on a base. The expiry may be up to `slack` nanoseconds later.
    pub fn start(
        &mut self,
        timer: u32,
        at: Expiry,
        slack: u64,
        base: u32,
        now: &Time,
    ) -> Result<Start, Refusal> {
        let (mode, ns) = at.numbers();
        let (code, it) = self.call(|handle, out| unsafe {
            raw::hrt_start(handle, timer, mode, ns, slack, base, now, out)
        })?;
        Ok(Start::of(code, &it))
    }

    /// Disarms a timer, if its function isn't running.
    pub fn cancel(&mut self, timer: u32) -> Result<Cancel, Refusal> {
        let (code, it) = self.call(|handle, out| unsafe { raw::hrt_cancel(handle, timer, out) })?;
        Ok(Cancel::of(code, &it))
    }

    /// Claims the timer of a context that is the next to expire on a base: its function is to run now.
    pub fn claim(
        &mut self,
        context: Context,
        base: u32,
        now: &Time,
    ) -> Result<Claimed<'_>, Refusal> {
        let (code, it) = self.call(|handle, out| unsafe {
            raw::hrt_claim(handle, context as u32, base, now, out)
        })?;
        Ok(Claimed::of(self, code, &it))
    }

    /// For how many nanoseconds a base may be left alone, and nothing where no timer is armed there.
    pub fn next(&mut self, base: u32, now: &Time) -> Result<Option<u64>, Refusal> {
        let (code, it) =
            self.call(|handle, out| unsafe { raw::hrt_next(handle, base, now, out) })?;
        Ok((code == raw::ARMED).then_some(it.wait))
    }

    /// How a timer is kept.
    pub fn peek(&mut self, timer: u32) -> Result<Peek, Refusal> {
        let (_, it) = self.call(|handle, out| unsafe { raw::hrt_peek(handle, timer, out) })?;
        Ok(Peek::of(&it))
    }

    fn forward(&mut self, timer: u32, now: &Time, interval: u64) -> Result<Forward, Refusal> {
        let (code, it) = self
            .call(|handle, out| unsafe { raw::hrt_forward(handle, timer, now, interval, out) })?;
        Ok(Forward::of(code, &it))
    }

    fn finish(&mut self, timer: u32, restart: bool) -> Result<Finish, Refusal> {
        let (code, it) = self
            .call(|handle, out| unsafe { raw::hrt_finish(handle, timer, restart.into(), out) })?;
        Ok(Finish::of(code, &it))
    }

    /// Makes a call by this handle, with room for its answer beside it: references are never null and none aliases another, which is all that the calls
    /// ask.
    fn call(
        &mut self,
        call: impl FnOnce(&mut Handle, &mut Answer) -> i32,
    ) -> Result<(i32, Answer), Refusal> {
        let mut out = Answer::default();
        match call(&mut self.0, &mut out) {
            code if code < 0 => Err(Refusal::of(code)),
            code => Ok((code, out)),
        }
    }
}

impl Drop for Timers {
    fn drop(&mut self) {
        // SAFETY: the handle is this one's alone, and has its timers.
        unsafe { raw::hrt_free(&mut self.0) };
    }
}

impl From<Declared> for raw::Declared {
    fn from(it: Declared) -> raw::Declared {
        raw::Declared {
            clock: it.clock as u32,
            context: it.context as u32,
        }
    }
}
