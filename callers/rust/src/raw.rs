//! The declarations of `hrt.h`, as they are in C. The crate's own types stand over them.
#[repr(C)]
#[derive(Debug)]
pub struct Handle {
    pub at: *mut u8,
}

impl Handle {
    pub const NONE: Handle = Handle {
        at: std::ptr::null_mut(),
    };
}

#[repr(C)]
#[derive(Clone, Copy, Debug)]
pub struct Declared {
    pub clock: u32,
    pub context: u32,
}

#[repr(C)]
#[derive(Clone, Copy, Debug, Default)]
pub struct Answer {
    pub timer: u32,
    pub base: u32,
    pub clock: u32,
    pub armed: u32,
    pub running: u32,
    pub moved: u32,
    pub generation: u64,
    pub number: u64,
    pub soft: u64,
    pub expires: u64,
    pub count: u64,
    pub wait: u64,
}

/// What a call on a seat tells.
#[repr(C)]
#[derive(Clone, Copy, Debug, Default)]
pub struct SharedAnswer {
    pub timer: u32,
    pub base: u32,
    pub clock: u32,
    pub armed: u32,
    pub running: u32,
    pub moving: u32,
    pub moved: u32,
    pub first: u32,
    pub generation: u64,
    pub number: u64,
    pub soft: u64,
    pub expires: u64,
    pub count: u64,
    pub wait: u64,
}

impl From<&SharedAnswer> for Answer {
    fn from(it: &SharedAnswer) -> Answer {
        Answer {
            timer: it.timer,
            base: it.base,
            clock: it.clock,
            armed: it.armed,
            running: it.running,
            moved: it.moved,
            generation: it.generation,
            number: it.number,
            soft: it.soft,
            expires: it.expires,
            count: it.count,
            wait: it.wait,
        }
    }
}

pub const DONE: i32 = 0;
pub const SPENT: i32 = 1;
pub const ARMED: i32 = 2;
pub const RUNNING: i32 = 3;
pub const BUSY: i32 = 4;
pub const CLAIMED: i32 = 5;
pub const CANCELLED: i32 = 6;
pub const AGAIN: i32 = 7;
/// From this number on an answer asks to call again.
pub const CONTENDED: i32 = 8;

unsafe extern "C" {
    pub fn hrt_new(
        timers: &mut Handle,
        bases: u32,
        declared: *const Declared,
        count: usize,
        max_events: u64,
    ) -> i32;
    pub fn hrt_free(timers: &mut Handle) -> i32;
    pub fn hrt_start(
        timers: &mut Handle,
        timer: u32,
        mode: u32,
        ns: u64,
        slack: u64,
        base: u32,
        now: &crate::Time,
        out: &mut Answer,
    ) -> i32;
    pub fn hrt_cancel(timers: &mut Handle, timer: u32, out: &mut Answer) -> i32;
    pub fn hrt_claim(
        timers: &mut Handle,
        context: u32,
        base: u32,
        now: &crate::Time,
        out: &mut Answer,
    ) -> i32;
    pub fn hrt_forward(
        timers: &mut Handle,
        timer: u32,
        now: &crate::Time,
        interval: u64,
        out: &mut Answer,
    ) -> i32;
    pub fn hrt_finish(timers: &mut Handle, timer: u32, restart: u32, out: &mut Answer) -> i32;
    pub fn hrt_next(timers: &mut Handle, base: u32, now: &crate::Time, out: &mut Answer) -> i32;
    pub fn hrt_peek(timers: &mut Handle, timer: u32, out: &mut Answer) -> i32;
    pub fn hrt_shared_open(
        seat: &mut Handle,
        bases: u32,
        declared: *const Declared,
        count: usize,
        max_events: u64,
    ) -> i32;
    pub fn hrt_shared_split(seat: &mut Handle, new_seat: &mut Handle) -> i32;
    pub fn hrt_shared_leave(seat: &mut Handle) -> i32;
    pub fn hrt_shared_start(
        seat: &mut Handle,
        timer: u32,
        mode: u32,
        ns: u64,
        slack: u64,
        base: u32,
        now: &crate::Time,
        out: &mut SharedAnswer,
    ) -> i32;
    pub fn hrt_shared_cancel(seat: &mut Handle, timer: u32, out: &mut SharedAnswer) -> i32;
    pub fn hrt_shared_claim(
        seat: &mut Handle,
        context: u32,
        base: u32,
        now: &crate::Time,
        out: &mut SharedAnswer,
    ) -> i32;
    pub fn hrt_shared_forward(
        seat: &mut Handle,
        timer: u32,
        now: &crate::Time,
        interval: u64,
        out: &mut SharedAnswer,
    ) -> i32;
    pub fn hrt_shared_finish(
        seat: &mut Handle,
        timer: u32,
        restart: u32,
        out: &mut SharedAnswer,
    ) -> i32;
    pub fn hrt_shared_next(
        seat: &mut Handle,
        base: u32,
        now: &crate::Time,
        out: &mut SharedAnswer,
    ) -> i32;
    pub fn hrt_shared_peek(seat: &mut Handle, timer: u32, out: &mut SharedAnswer) -> i32;
}
