//! `callers/c/check.c`, from Rust.
use hulayban::trace::{Verdict, check};

fn main() -> std::io::Result<()> {
    for name in std::env::args().skip(1) {
        match check(&std::fs::read(name)?) {
            Ok(Verdict::Fits {
                events,
                timers,
                processors,
            }) => println!("fits: {events} events, {timers} timers, {processors} processors"),
            Ok(Verdict::Misfit {
                line,
                cause,
                soft,
                now,
                timer,
            }) => println!("line {line}: cause {cause}, soft {soft}, now {now}, timer {timer:x}"),
            Ok(Verdict::Unreadable { line, cause }) => {
                println!("line {line} can't be read: {cause}")
            }
            Ok(Verdict::NoEvents { cause }) => println!("no timer events: {cause}"),
            Err(refusal) => println!("{refusal}"),
        }
    }
    Ok(())
}
