//! The simulation of `callers/c/simulation.c`, from Rust: it prints the same lines.
use hulayban::*;

const TICK: u32 = 0;
const WATCHDOG: u32 = 1;
const DEADLINE: u32 = 2;

fn at(ns: u64) -> Time {
    Time {
        mono: ns,
        real: 1000 + ns,
        boot: ns,
    }
}

fn start(
    timers: &mut Timers,
    timer: u32,
    expiry: Expiry,
    slack: u64,
    now: u64,
) -> Result<(), Refusal> {
    match timers.start(timer, expiry, slack, 0, &at(now))? {
        Start::Armed {
            generation,
            expires,
            ..
        } => println!("{now}: start {timer} = 0, generation {generation}, expires {expires}"),
        Start::Spent { .. } => println!("{now}: start {timer} = 1"),
    }
    Ok(())
}

/// What the function of each timer does; answers whether it is to be armed again.
fn run(claim: &mut Claim<'_>, now: u64) -> Result<bool, Refusal> {
    match claim.timer {
        TICK => {
            if let Forward::Moved { count, expires, .. } = claim.forward(&at(now), 100)? {
                println!("{now}: forward = 0, count {count}, expires {expires}");
            }
            start(claim.timers(), WATCHDOG, Expiry::In(150), 20, now)?;
            return Ok(true);
        }
        DEADLINE => {
            let timers = claim.timers();
            if let Cancel::Cancelled { generation, .. } = timers.cancel(TICK)? {
                println!("{now}: cancel tick = 6, generation {generation}");
            }
            let itself = match timers.cancel(DEADLINE)? {
                Cancel::Running { .. } => 3,
                _ => 0,
            };
            let beside = match timers.claim(Context::Soft, 0, &at(now))? {
                Claimed::Busy { .. } => 4,
                _ => 0,
            };
            println!("{now}: cancel itself = {itself}, claim beside it = {beside}");
        }
        _ => {}
    }
    Ok(false)
}

fn expire(timers: &mut Timers, context: Context, now: u64) -> Result<(), Refusal> {
    while let Claimed::Timer(mut claim) = timers.claim(context, 0, &at(now))? {
        let timer = claim.timer;
        println!(
            "{now}: claim {timer}, generation {}, base {}, clock {}, soft {}, expires {}",
            claim.generation, claim.base, claim.clock as u32, claim.soft, claim.expires
        );
        let again = run(&mut claim, now)?;
        match claim.finish(again)? {
            Finish::Done { number } => println!("{now}: finish {timer} = 0, number {number}"),
            Finish::Again { number, .. } => println!("{now}: finish {timer} = 7, number {number}"),
            Finish::Spent { number } => println!("{now}: finish {timer} = 1, number {number}"),
        }
    }
    Ok(())
}

/// Sleeps from one expiry to the next, until no timer is armed.
fn run_all(timers: &mut Timers) -> Result<(), Refusal> {
    let mut now = 0;
    loop {
        expire(timers, Context::Hard, now)?;
        expire(timers, Context::Soft, now)?;
        let Some(wait) = timers.next(0, &at(now))? else {
            println!("{now}: next = 0, wait 0");
            return Ok(());
        };
        println!("{now}: next = 2, wait {wait}");
        now += wait;
    }
}

/// A timer that takes one entry, and takes no other.
fn one_entry() -> Result<(), Refusal> {
    let declared = Declared {
        clock: Clock::Boottime,
        context: Context::Hard,
    };
    let mut one = Timers::new(1, &[declared], 1)?;
    let first = one.start(0, Expiry::In(5), 0, 0, &at(0))?;
    let second = one.start(0, Expiry::In(5), 0, 0, &at(0))?;
    let number = |it| i32::from(matches!(it, Start::Spent { .. }));
    println!("one entry: 0 {} {}", number(first), number(second));
    Ok(())
}

fn main() -> Result<(), Refusal> {
    let hard = Declared {
        clock: Clock::Monotonic,
        context: Context::Hard,
    };
    let soft = Declared {
        clock: Clock::Realtime,
        context: Context::Soft,
    };
    let mut timers = Timers::new(1, &[hard, hard, soft], 1000)?;
    println!("new = 0");
    start(&mut timers, TICK, Expiry::In(100), 0, 0)?;
    start(&mut timers, DEADLINE, Expiry::At(1360), 0, 0)?;
    run_all(&mut timers)?;
    for timer in 0..3 {
        let it = timers.peek(timer)?;
        println!(
            "peek {timer}: armed {}, running {}, number {}, expires {}",
            u32::from(it.armed),
            u32::from(it.running),
            it.number,
            it.expires
        );
    }
    one_entry()?;
    drop(timers);
    println!("free = 0");
    Ok(())
}
