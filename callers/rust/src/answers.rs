//! What calls answer, and why they are refused.
use crate::Clock;
use crate::raw::{AGAIN, ARMED, Answer, CANCELLED, RUNNING, SPENT};
use std::fmt;

/// `Timers::start`. `Spent`: the timer's limit on entries was reached, and nothing has changed.
#[derive(Clone, Copy, Debug, PartialEq, Eq)]
pub enum Start {
    Armed {
        base: u32,
        clock: Clock,
        soft: u64,
        expires: u64,
        was_armed: bool,
        moved: bool,
        generation: u64,
        number: u64,
    },
    Spent {
        number: u64,
    },
}

/// `Timers::cancel`. `Idle`: neither armed nor running. `Running`: the timer's function runs, and nothing has changed.
#[derive(Clone, Copy, Debug, PartialEq, Eq)]
pub enum Cancel {
    Cancelled { generation: u64, number: u64 },
    Idle { number: u64 },
    Running { generation: u64, number: u64 },
}

/// `Claim::forward`. `Armed`: the function has started its timer meanwhile, and nothing has changed.
#[derive(Clone, Copy, Debug, PartialEq, Eq)]
pub enum Forward {
    Moved {
        count: u64,
        soft: u64,
        expires: u64,
        number: u64,
    },
    Spent {
        number: u64,
    },
    Armed {
        generation: u64,
        number: u64,
    },
}

/// `Claim::finish`. `Spent`: the run has ended, and the timer takes no restart any more.
#[derive(Clone, Copy, Debug, PartialEq, Eq)]
pub enum Finish {
    Done { number: u64 },
    Again { generation: u64, number: u64 },
    Spent { number: u64 },
}

/// `Timers::peek`. The generation is 0 where the timer isn't armed.
#[derive(Clone, Copy, Debug, PartialEq, Eq)]
pub struct Peek {
    pub base: u32,
    pub clock: Clock,
    pub armed: bool,
    pub running: bool,
    pub generation: u64,
    pub number: u64,
    pub soft: u64,
    pub expires: u64,
}

impl Start {
    pub(crate) fn of(code: i32, it: &Answer) -> Start {
        match code {
            SPENT => Start::Spent { number: it.number },
            _ => Start::Armed {
                base: it.base,
                clock: clock_of(it.clock),
                soft: it.soft,
                expires: it.expires,
                was_armed: it.armed != 0,
                moved: it.moved != 0,
                generation: it.generation,
                number: it.number,
            },
        }
    }
}

impl Cancel {
    pub(crate) fn of(code: i32, it: &Answer) -> Cancel {
        let (generation, number) = (it.generation, it.number);
        match code {
            CANCELLED => Cancel::Cancelled { generation, number },
            RUNNING => Cancel::Running { generation, number },
            _ => Cancel::Idle { number },
        }
    }
}

impl Forward {
    pub(crate) fn of(code: i32, it: &Answer) -> Forward {
        let number = it.number;
        match code {
            SPENT => Forward::Spent { number },
            ARMED => Forward::Armed {
                generation: it.generation,
                number,
            },
            _ => Forward::Moved {
                count: it.count,
                soft: it.soft,
                expires: it.expires,
                number,
            },
        }
    }
}

impl Finish {
    pub(crate) fn of(code: i32, it: &Answer) -> Finish {
        let number = it.number;
        match code {
            SPENT => Finish::Spent { number },
            AGAIN => Finish::Again {
                generation: it.generation,
                number,
            },
            _ => Finish::Done { number },
        }
    }
}

impl Peek {
    pub(crate) fn of(it: &Answer) -> Peek {
        Peek {
            base: it.base,
            clock: clock_of(it.clock),
            armed: it.armed != 0,
            running: it.running != 0,
            generation: it.generation,
            number: it.number,
            soft: it.soft,
            expires: it.expires,
        }
    }
}

pub(crate) fn clock_of(number: u32) -> Clock {
    match number {
        0 => Clock::Realtime,
        7 => Clock::Boottime,
        _ => Clock::Monotonic,
    }
}

/// Why a call is refused, by its number in C. Nothing has changed then.
#[repr(i32)]
#[derive(Clone, Copy, Debug, PartialEq, Eq)]
pub enum Refusal {
    NoTimers = -1,
    InUse = -2,
    NoMemory = -3,
    BadTimer = -4,
    BadBase = -5,
    BadMode = -6,
    BadTime = -7,
    BadClock = -8,
    BadContext = -9,
    BadCount = -10,
    BadLimit = -11,
    NotRunning = -12,
    Carries = -13,
    HoldsClaim = -14,
    NotClaimed = -15,
}

const REFUSALS: [(Refusal, &str); 15] = [
    (Refusal::NoTimers, "the handle has no timers"),
    (Refusal::InUse, "the handle has timers already"),
    (Refusal::NoMemory, "out of memory"),
    (Refusal::BadTimer, "no timer has this number"),
    (Refusal::BadBase, "no base has this number"),
    (Refusal::BadMode, "no mode has this number"),
    (Refusal::BadTime, "a time of the reading is past 2^62"),
    (Refusal::BadClock, "no clock has this number"),
    (Refusal::BadContext, "no context has this number"),
    (Refusal::BadCount, "more timers than there may be"),
    (Refusal::BadLimit, "a limit from 1 to 2^48 - 16"),
    (Refusal::NotRunning, "the timer's function isn't running"),
    (Refusal::Carries, "the seat carries a timer"),
    (Refusal::HoldsClaim, "the seat has a claim"),
    (Refusal::NotClaimed, "the seat has no claim of this timer"),
];

impl Refusal {
    pub(crate) fn of(code: i32) -> Refusal {
        let found = REFUSALS.iter().find(|(it, _)| *it as i32 == code);
        found.expect("hrt.h has this number").0
    }
}

impl fmt::Display for Refusal {
    fn fmt(&self, out: &mut fmt::Formatter<'_>) -> fmt::Result {
        let found = REFUSALS.iter().find(|(it, _)| it == self);
        out.write_str(found.map_or("", |(_, says)| says))
    }
}

impl std::error::Error for Refusal {}
