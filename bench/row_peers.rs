//! The standard library's lock round a 64-bit counter: the cases of crates/benches/src/rows.
use std::sync::{Mutex, PoisonError};
use std::thread;
use std::time::Instant;

const VALUES: usize = 32;
const LOCKS: u32 = 500_000;
const ROUNDS: u32 = 5;

fn turn(value: &Mutex<u64>) {
    for _ in 0..LOCKS {
        *value.lock().unwrap_or_else(PoisonError::into_inner) += 1;
    }
}

/// One thread on value 0, or a second one beside it.
fn run(values: &[Mutex<u64>], second: Option<usize>) {
    thread::scope(|scope| {
        if let Some(index) = second {
            scope.spawn(move || turn(&values[index]));
        }
        turn(&values[0]);
    });
}

fn main() {
    let values: Vec<Mutex<u64>> = (0..VALUES).map(|_| Mutex::new(0)).collect();
    let places = [
        ("one thread, one value", None),
        ("two threads, values side by side", Some(1)),
        ("two threads, values far apart", Some(VALUES - 1)),
        ("two threads, one value", Some(0)),
    ];
    for (place, second) in places {
        let mut least = u128::MAX;
        for _ in 0..ROUNDS {
            let start = Instant::now();
            run(&values, second);
            least = least.min(start.elapsed().as_nanos());
        }
        println!("Rust Mutex\t{place}\t{:.1}", least as f64 / f64::from(LOCKS));
    }
}
