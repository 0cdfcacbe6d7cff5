//! A claim ends where its value does: a function that returns early, by `?` or by a panic, leaves no timer running and no base busy.
use hulayban::*;
use std::panic::{AssertUnwindSafe, catch_unwind};

const NOW: Time = Time {
    mono: 10,
    real: 10,
    boot: 10,
};

/// Claims the timer, which is due, and leaves the claim as `way` says. The call of it that fails is refused.
fn run(timers: &mut Timers, way: &str) -> Result<(), Refusal> {
    timers.start(0, Expiry::At(5), 0, 0, &NOW)?;
    let Claimed::Timer(mut claim) = timers.claim(Context::Hard, 0, &NOW)? else {
        panic!("the timer is due");
    };
    println!("{way}: {:?}", claim.timers().claim(Context::Hard, 0, &NOW)?);
    match way {
        "finished" => claim.finish(true).map(|it| println!("{it:?}"))?,
        "refused" => claim.timers().cancel(7).map(|_| ())?,
        "panicked" => panic!("in the function"),
        _ => {}
    }
    Ok(())
}

fn main() -> Result<(), Refusal> {
    std::panic::set_hook(Box::new(|_| ()));
    let declared = Declared {
        clock: Clock::Monotonic,
        context: Context::Hard,
    };
    let mut timers = Timers::new(1, &[declared], MAX_EVENTS)?;
    for way in ["dropped", "refused", "panicked", "finished"] {
        let ran = catch_unwind(AssertUnwindSafe(|| run(&mut timers, way)));
        println!("{ran:?}");
        let it = timers.peek(0)?;
        println!("armed {}, running {}", it.armed, it.running);
    }
    for refusal in [
        Timers::new(0, &[declared], 1).err(),
        Timers::new(MAX_BASES + 1, &[declared], 1).err(),
        Timers::new(1, &[declared], 0).err(),
        timers.next(1, &NOW).err(),
    ] {
        println!("{}", refusal.expect("a number is bad"));
    }
    Ok(())
}
