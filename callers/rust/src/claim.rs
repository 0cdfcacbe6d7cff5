//! The right to run a timer's function, once.
use crate::answers::clock_of;
use crate::raw::{Answer, BUSY, CLAIMED};
use crate::{Clock, Finish, Forward, Refusal, Time, Timers};
use std::mem::ManuallyDrop;

/// What a claim answers.
#[derive(Debug)]
pub enum Claimed<'a> {
    /// The function of this timer is to run.
    Timer(Claim<'a>),
    /// No timer of the context may run now.
    Nothing,
    /// A function of the context runs on the base already.
    Busy { timer: u32, generation: u64 },
}

/// A timer whose function is to run. `finish` ends the run and says what became of it; a claim that is dropped ends it without a restart. Until then the
/// timers are reached through it.
#[derive(Debug)]
#[must_use = "a claim that is dropped at once ends the run before the function has run"]
pub struct Claim<'a> {
    timers: &'a mut Timers,
    pub timer: u32,
    pub base: u32,
    pub clock: Clock,
    pub generation: u64,
    pub number: u64,
    pub soft: u64,
    pub expires: u64,
}

impl<'a> Claimed<'a> {
    pub(crate) fn of(timers: &'a mut Timers, code: i32, it: &Answer) -> Claimed<'a> {
        match code {
            CLAIMED => Claimed::Timer(Claim {
                timers,
                timer: it.timer,
                base: it.base,
                clock: clock_of(it.clock),
                generation: it.generation,
                number: it.number,
                soft: it.soft,
                expires: it.expires,
            }),
            BUSY => Claimed::Busy {
                timer: it.timer,
                generation: it.generation,
            },
            _ => Claimed::Nothing,
        }
    }
}

impl Claim<'_> {
    /// The timers, for the calls that the function makes.
    pub fn timers(&mut self) -> &mut Timers {
        self.timers
    }

    /// Moves the timer's expiry past now by whole intervals; an interval of 0 counts as 1. It arms nothing.
    pub fn forward(&mut self, now: &Time, interval: u64) -> Result<Forward, Refusal> {
        self.timers.forward(self.timer, now, interval)
    }

    /// Ends the run; `restart` asks that the timer is armed again, at the expiry that it has.
    pub fn finish(self, restart: bool) -> Result<Finish, Refusal> {
        let mut claim = ManuallyDrop::new(self);
        let timer = claim.timer;
        claim.timers.finish(timer, restart)
    }
}

impl Drop for Claim<'_> {
    fn drop(&mut self) {
        // Refused only where the function has put other timers in the place of these.
        let _ = self.timers.finish(self.timer, false);
    }
}
