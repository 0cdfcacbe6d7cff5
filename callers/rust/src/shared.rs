//! Timers that threads share: each thread has a [`Seat`] of its own.
//!
//! A call tries each lock once. Where another seat has it nothing has changed, and the call is made again here, after a pause that grows; that it ever
//! gets the lock is not proved. A start that goes to another base takes its timer off the one base and starts it on the other.
use crate::raw::{self, BUSY, CLAIMED, CONTENDED, Handle, SPENT, SharedAnswer};
use crate::{Cancel, Context, Declared, Expiry, Finish, Forward, Refusal, Time};
use std::mem::ManuallyDrop;
use std::{hint, thread};

/// `Seat::start`. `first`: the timer now leads the queue of its context and clock on its base, so whoever sleeps by `next` of that base has to be
/// woken. `Spent`: the timer's limit on entries was reached.
#[derive(Clone, Copy, Debug, PartialEq, Eq)]
pub enum Start {
    Armed {
        base: u32,
        soft: u64,
        expires: u64,
        was_armed: bool,
        moved: bool,
        first: bool,
        generation: u64,
        number: u64,
    },
    Spent {
        number: u64,
    },
}

/// `Seat::peek`: by one look at a word, which no lock holds up. `moving`: it is between two bases.
#[derive(Clone, Copy, Debug, PartialEq, Eq)]
pub struct Peek {
    pub base: u32,
    pub armed: bool,
    pub running: bool,
    pub moving: bool,
    pub number: u64,
}

/// One thread's seat at timers that threads share. It may go to another thread, and is used by one at a time. Dropped, it is given back; the last one
/// frees the timers.
#[derive(Debug)]
pub struct Seat(Handle);

// SAFETY: a seat owns what its pointer leads to; what it shares with other seats is behind the library's own locks and counts.
unsafe impl Send for Seat {}

impl Seat {
    /// Timers on so many bases, at most `MAX_SHARED`, and the first seat at them. At `max_events` entries a timer takes no start, forward or restart any
    /// more.
    pub fn open(bases: u32, declared: &[Declared], max_events: u64) -> Result<Seat, Refusal> {
        let declared: Vec<raw::Declared> = declared.iter().map(|&it| it.into()).collect();
        let mut seat = Seat(Handle::NONE);
        // SAFETY: the pointer of a Vec isn't null and has as many declarations as the Vec is long.
        let code = unsafe {
            raw::hrt_shared_open(
                &mut seat.0,
                bases,
                declared.as_ptr(),
                declared.len(),
                max_events,
            )
        };
        if code < 0 {
            return Err(Refusal::of(code));
        }
        Ok(seat)
    }

    /// One more seat at the same timers, for another thread.
    pub fn split(&mut self) -> Result<Seat, Refusal> {
        let mut seat = Seat(Handle::NONE);
        // SAFETY: two handles, each its value's own.
        match unsafe { raw::hrt_shared_split(&mut self.0, &mut seat.0) } {
            code if code < 0 => Err(Refusal::of(code)),
            _ => Ok(seat),
        }
    }

    /// Arms a timer on a base. The expiry may be up to `slack` nanoseconds later. A timer whose function runs keeps its base.
    pub fn start(
        &mut self,
        timer: u32,
        at: Expiry,
        slack: u64,
        base: u32,
        now: &Time,
    ) -> Result<Start, Refusal> {
        let (mode, ns) = at.numbers();
        let (code, it) = self.call(|seat, out| unsafe {
            raw::hrt_shared_start(seat, timer, mode, ns, slack, base, now, out)
        })?;
        Ok(match code {
            SPENT => Start::Spent { number: it.number },
            _ => Start::Armed {
                base: it.base,
                soft: it.soft,
                expires: it.expires,
                was_armed: it.armed != 0,
                moved: it.moved != 0,
                first: it.first != 0,
                generation: it.generation,
                number: it.number,
            },
        })
    }

    /// Disarms a timer, if its function isn't running.
    pub fn cancel(&mut self, timer: u32) -> Result<Cancel, Refusal> {
        let (code, it) =
            self.call(|seat, out| unsafe { raw::hrt_shared_cancel(seat, timer, out) })?;
        Ok(Cancel::of(code, &(&it).into()))
    }

    /// Claims the timer of a context that is the next to expire on a base: its function is to run now, by this thread.
    pub fn claim(
        &mut self,
        context: Context,
        base: u32,
        now: &Time,
    ) -> Result<Claimed<'_>, Refusal> {
        let (code, it) = self.call(|seat, out| unsafe {
            raw::hrt_shared_claim(seat, context as u32, base, now, out)
        })?;
        Ok(match code {
            CLAIMED => Claimed::Timer(Claim {
                seat: self,
                timer: it.timer,
                base: it.base,
                generation: it.generation,
                number: it.number,
            }),
            BUSY => Claimed::Busy {
                timer: it.timer,
                generation: it.generation,
            },
            _ => Claimed::Nothing,
        })
    }

    /// For how many nanoseconds this thread may leave a base alone, and nothing where no timer was seen armed there. It looks at each queue of the base at a
    /// moment of its own: a start that is `first` meanwhile has to wake who sleeps by this.
    pub fn next(&mut self, base: u32, now: &Time) -> Result<Option<u64>, Refusal> {
        let (code, it) =
            self.call(|seat, out| unsafe { raw::hrt_shared_next(seat, base, now, out) })?;
        Ok((code == raw::ARMED).then_some(it.wait))
    }

    /// How a timer is.
    pub fn peek(&mut self, timer: u32) -> Result<Peek, Refusal> {
        let (_, it) = self.call(|seat, out| unsafe { raw::hrt_shared_peek(seat, timer, out) })?;
        Ok(Peek {
            base: it.base,
            armed: it.armed != 0,
            running: it.running != 0,
            moving: it.moving != 0,
            number: it.number,
        })
    }

    /// Makes a call by this seat until it doesn't ask to be made again.
    fn call(
        &mut self,
        call: impl Fn(&mut Handle, &mut SharedAnswer) -> i32,
    ) -> Result<(i32, SharedAnswer), Refusal> {
        let mut out = SharedAnswer::default();
        let mut tries = 0;
        loop {
            match call(&mut self.0, &mut out) {
                code if code < 0 => return Err(Refusal::of(code)),
                code if code < CONTENDED => return Ok((code, out)),
                _ => pause(tries),
            }
            tries += 1;
        }
    }
}

impl Drop for Seat {
    fn drop(&mut self) {
        // Refused only where a claim of it was forgotten: the timers then stay.
        // SAFETY: the handle is this one's alone.
        unsafe { raw::hrt_shared_leave(&mut self.0) };
    }
}

/// A pause before the next try: longer from try to try, and after ten of them the thread gives its processor up for once.
fn pause(tries: u32) {
    if tries < 10 {
        (0..1 << tries).for_each(|_| hint::spin_loop());
    } else {
        thread::yield_now();
    }
}

/// What a claim answers.
#[derive(Debug)]
pub enum Claimed<'a> {
    /// The function of this timer is to run.
    Timer(Claim<'a>),
    /// No timer of the context may run now.
    Nothing,
    /// A function of the context runs on the base already.
    Busy { timer: u32, generation: u64 },
}

/// A timer whose function is to run, by this thread. `finish` ends the run and says what became of it; a claim that is dropped ends it without a restart.
/// Until then the seat is reached through it.
#[derive(Debug)]
#[must_use = "a claim that is dropped at once ends the run before the function has run"]
pub struct Claim<'a> {
    seat: &'a mut Seat,
    pub timer: u32,
    pub base: u32,
    pub generation: u64,
    pub number: u64,
}

impl Claim<'_> {
    /// The seat, for the calls that the function makes.
    pub fn seat(&mut self) -> &mut Seat {
        self.seat
    }

    /// Moves the timer's expiry past now by whole intervals; an interval of 0 counts as 1. It arms nothing.
    pub fn forward(&mut self, now: &Time, interval: u64) -> Result<Forward, Refusal> {
        let timer = self.timer;
        let (code, it) = self.seat.call(|seat, out| unsafe {
            raw::hrt_shared_forward(seat, timer, now, interval, out)
        })?;
        Ok(Forward::of(code, &(&it).into()))
    }

    /// Ends the run; `restart` asks that the timer is armed again, at the expiry that it has.
    pub fn finish(self, restart: bool) -> Result<Finish, Refusal> {
        let claim = ManuallyDrop::new(self);
        // SAFETY: the claim isn't dropped and isn't used again, so its seat is borrowed once.
        let seat = unsafe { std::ptr::read(&claim.seat) };
        end(seat, claim.timer, restart)
    }
}

impl Drop for Claim<'_> {
    fn drop(&mut self) {
        let _ = end(self.seat, self.timer, false);
    }
}

fn end(seat: &mut Seat, timer: u32, restart: bool) -> Result<Finish, Refusal> {
    let (code, it) =
        seat.call(|seat, out| unsafe { raw::hrt_shared_finish(seat, timer, restart.into(), out) })?;
    Ok(Finish::of(code, &(&it).into()))
}
