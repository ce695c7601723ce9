#!/usr/bin/env python3
"""Claims and accepts the parts of one file in a random order, 131,072 parts and 262,144, and prints the time for each and the
ratio of the two, which is to be at most 2.2. Other counts may be given, the second twice the first. It builds a program of its
own over copies of range_assembler and the crates below it, in a folder that it removes."""

import sys
import tempfile

from built import build, rows_of

WANTED = 2.2
COUNTS = (131_072, 262_144)
USES = ["range_assembler"]
MAIN = """//! Times the claims and accepts of a file's parts in a random order.
#![tactic(auto)]

use range_assembler::{Assembler, Hold};
use std::io;
use std::time::Instant;

const PART: u64 = 750_000;

fn next(seed: u64) -> u64 {
    let seed = seed ^ (seed << 13);
    let seed = seed ^ (seed >> 7);
    seed ^ (seed << 17)
}

fn shuffle(order: &mut Vec<u32>) {
    let mut seed: u64 = 88172645463325252;
    for i in 0..order.len() {
        seed = next(seed);
        let other = (seed % (i as u64 + 1)) as usize;
        order.swap(i, other);
    }
}

fn land(assembler: &mut Assembler, segment: u32, size: u64) -> bool {
    let first = segment as u64 * PART + 1;
    let last = first + (PART - 1);
    match assembler.entry(segment) {
        Some(entry) => match entry.hold {
            Hold::Free => {
                if last > 1 << 40 || assembler.claim(segment, first, last).is_err() {
                    return false;
                }
            }
            _ => return false,
        },
        None => return false,
    }
    match assembler.entry(segment) {
        Some(entry) => match entry.hold {
            Hold::Held => entry.last <= size && assembler.accept(segment, size).is_ok(),
            _ => false,
        },
        None => false,
    }
}

fn measure(rt: &HostRuntime, count: u32) -> io::Result<()> {
    let mut order: Vec<u32> = Vec::new(rt.alloc());
    for segment in 0..count {
        if order.push(segment).is_err() {
            return Ok(());
        }
    }
    shuffle(&mut order);
    if count > 262144 {
        return Ok(());
    }
    let start = Instant::now(rt)?;
    let mut assembler = match Assembler::new(rt.alloc(), &[count]) {
        Ok(assembler) => assembler,
        Err(_) => return Ok(()),
    };
    let mut good = true;
    for i in 0..order.len() {
        good = land(&mut assembler, order[i], count as u64 * PART) && good;
    }
    let time = start.elapsed(rt)?.as_nanos();
    good = good && assembler.complete(0);
    println!(rt; "{good} {count} {time}")?;
    Ok(())
}

fn main(rt: HostRuntime) -> io::Result<()> {
    measure(&rt, FEWER)?;
    measure(&rt, MORE)
}
"""


def measure(program):
    """The least times of some runs, in nanoseconds, by the number of parts."""
    least = {}
    for row in rows_of(program):
        good, count, time = row.split()
        if good != "true":
            sys.exit("a call was refused")
        least[int(count)] = min(int(time), least.get(int(count), int(time)))
    return least


def main():
    counts = tuple(map(int, sys.argv[1:3])) if len(sys.argv) == 3 else COUNTS
    with tempfile.TemporaryDirectory() as folder:
        main_text = MAIN.replace("FEWER", str(counts[0])).replace("MORE", str(counts[1]))
        times = measure(build(folder, "assembler_bench", USES, main_text))
    for count in counts:
        print(f"{count} parts: {times[count] / 1e9:.3f} s, {times[count] / count:.0f} ns a part")
    ratio = times[counts[1]] / times[counts[0]]
    print(f"twice the parts take {ratio:.2f} times the time (at most {WANTED})")
    if ratio > WANTED:
        sys.exit(1)


main()
