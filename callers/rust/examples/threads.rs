//! Four threads share timers, each with a seat and a base of its own. Each starts and cancels timers on all bases, and runs the functions of its own.
//! At the end each arming has ended once, by a claim, a cancel or a later start, or stands.
use hulayban::shared::{Claimed, Seat, Start};
use hulayban::*;
use std::thread;
use std::time::Instant;

const THREADS: u32 = 4;
const TIMERS: u32 = 64;
const ROUNDS: u32 = 20_000;

/// How many armings a thread has made, and how many it has ended.
#[derive(Default)]
struct Counts {
    made: u64,
    ended: u64,
}

/// A small generator, so that the package needs no other.
fn pick(state: &mut u32, below: u32) -> u32 {
    *state = state.wrapping_mul(1_664_525).wrapping_add(1_013_904_223);
    (*state >> 8) % below
}

fn now(begun: Instant) -> Time {
    let mono = begun.elapsed().as_nanos() as u64;
    Time {
        mono,
        ..Time::default()
    }
}

/// Runs the functions of a base that may run now: each third timer goes on by 10 us.
fn expire(seat: &mut Seat, base: u32, begun: Instant, counts: &mut Counts) -> Result<(), Refusal> {
    let time = now(begun);
    while let Claimed::Timer(mut claim) = seat.claim(Context::Hard, base, &time)? {
        counts.ended += 1;
        let again = claim.timer % 3 == 0;
        if again {
            claim.forward(&time, 10_000)?;
        }
        if let Finish::Again { .. } = claim.finish(again)? {
            counts.made += 1;
        }
    }
    Ok(())
}

fn live(mut seat: Seat, base: u32, begun: Instant) -> Result<Counts, Refusal> {
    let (mut counts, mut state) = (Counts::default(), base + 1);
    for _ in 0..ROUNDS {
        let timer = pick(&mut state, TIMERS);
        if pick(&mut state, 3) > 0 {
            let (ns, to) = (pick(&mut state, 200_000), pick(&mut state, THREADS));
            let started = seat.start(timer, Expiry::In(ns.into()), 0, to, &now(begun))?;
            if let Start::Armed { was_armed, .. } = started {
                counts.made += 1;
                counts.ended += u64::from(was_armed);
            }
        } else if let Cancel::Cancelled { .. } = seat.cancel(timer)? {
            counts.ended += 1;
        }
        expire(&mut seat, base, begun, &mut counts)?;
    }
    Ok(counts)
}

fn main() -> Result<(), Refusal> {
    let declared = Declared {
        clock: Clock::Monotonic,
        context: Context::Hard,
    };
    let mut seat = Seat::open(THREADS, &[declared; TIMERS as usize], MAX_EVENTS)?;
    let begun = Instant::now();
    let threads: Vec<_> = (0..THREADS)
        .map(|base| {
            let own = seat.split()?;
            Ok(thread::spawn(move || live(own, base, begun)))
        })
        .collect::<Result<_, Refusal>>()?;
    let mut all = Counts::default();
    for thread in threads {
        let counts = thread.join().expect("no thread panics")?;
        all.made += counts.made;
        all.ended += counts.ended;
    }
    for timer in 0..TIMERS {
        all.ended += u64::from(seat.peek(timer)?.armed);
    }
    assert!(all.made > 0 && all.made == all.ended, "an arming was lost");
    println!("each start was claimed, cancelled or started over once, or is armed");
    Ok(())
}
