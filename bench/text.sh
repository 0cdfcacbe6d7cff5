#!/usr/bin/env bash
# Counts by callgrind how many instructions it takes to read a line of a script (`parse`, of a script that `generate` makes: 8,991 lines on eight lanes), and to
# write what one call leaves in a record (`text`: a start's entry and its answer). It copies the crates into a folder of its own, and proves and builds a program
# there, over what checks here have kept; the first time that takes a quarter of an hour.
#
# usage: bench/text.sh
set -eu
top=$(cd "$(dirname "$0")/.." && pwd)
folder=$(mktemp -d)
trap 'rm -rf "$folder"' EXIT
crates='ktime timer_queue seq_timer record_text script_text'
git -C "$folder" init -q
mkdir -p "$folder/crates/text_bench/src"
cp "$top/HANDLES" "$folder"
for crate in $crates; do
    cp -al "$top/crates/$crate" "$folder/crates/$crate"
    grep "^$crate:" "$top/crates.txt"
done > "$folder/crates.txt"
echo "text_bench: $crates" >> "$folder/crates.txt"
cat > "$folder/crates/text_bench/src/main.rt" << 'RT'
//! Reads a generated script so many times, or writes a record of 8,192 starts so many times.
#![tactic(auto)]

use ktime::{ClockId, Mode};
use record_text::{Answer, Entry, ItemList, Label, RunRecord, TimerLine, Version, text};
use script_text::{generate, parse};
use seq_timer::{AskedBy, EventBy, Placement, Reply};
use std::alloc::{AllocError, Global};
use std::{env, io};

fn line(alloc: Global, i: u64) -> TimerLine {
    let asked = AskedBy { mode: Mode::Rel, ns: i % 100, slack: 0, reading: i, base: 3 };
    let placement = Placement { base: 3, clock: ClockId::Monotonic, soft: i, expires: i };
    let event = EventBy::Start(asked);
    let reply = Reply::Start { placement, was_armed: false };
    let label = Label { lane: 3, call: (i % 65536) as u32 };
    TimerLine { label, entry: Entry { event, reply }, looks: ItemList::from_vec(Vec::new(alloc)) }
}

fn record(alloc: Global, n: u64) -> Result<RunRecord, AllocError> {
    let mut lines = ItemList::new(alloc);
    let mut given = ItemList::new(alloc);
    for i in 0..n {
        lines.push(line(alloc, i))?;
        given.push(Answer::Started { generation: i, base: 3, was_armed: false })?;
    }
    let mut timers = ItemList::new(alloc);
    timers.push(lines)?;
    let mut answers = ItemList::new(alloc);
    answers.push(given)?;
    Ok(RunRecord { version: Version::One, clock: ItemList::new(alloc), bases: ItemList::new(alloc), timers, objects: ItemList::new(alloc), answers })
}

fn write(alloc: Global, n: u64, times: u64) -> Result<u64, AllocError> {
    let run = record(alloc, n)?;
    let mut all = 0;
    for _ in 0..times {
        let bytes = text(alloc, &run)?;
        all = bytes.len() as u64;
    }
    Ok(all)
}

fn read(alloc: Global, times: u64) -> Result<u64, AllocError> {
    let bytes = generate(alloc, 7, 8, 1024)?;
    let mut all = 0;
    for _ in 0..times {
        if let Ok(script) = parse(alloc, &bytes) {
            all = script.rounds.as_slice().len() as u64;
        }
    }
    Ok(all)
}

fn main(rt: HostRuntime) -> io::Result<()> {
    let words: Vec<String> = env::args(&rt)?.collect(rt.alloc())?;
    if let [_, name, times] = words.as_slice() {
        if let Ok(times) = times.parse::<u64>() {
            let all = if name.as_str() == "read" { read(rt.alloc(), times)? } else { write(rt.alloc(), 8192, times)? };
            println!(rt; "{all}")?;
        }
    }
    Ok(())
}
RT
(cd "$folder/crates/text_bench" && rt run -- read 0) > "$folder/log" || { tail -n 20 "$folder/log" >&2; exit 1; }
count() {
    valgrind --tool=callgrind --callgrind-out-file=/dev/null "$folder/crates/text_bench/out/text_bench" "$@" 2>&1 | sed -n 's/,//g; s/.*refs: *//p'
}
echo "a line read: $((($(count read 3) - $(count read 1)) / 2 / 8991)) instructions"
echo "a call written: $((($(count write 3) - $(count write 1)) / 2 / 8192)) instructions"
