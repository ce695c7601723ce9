#!/usr/bin/env python3
"""Splits a block of lines of 128 bytes and stuffs them again, and prints how fast that is beside copies of the same bytes in
the same run. It builds a program of its own over copies of dot_blocks and the crates below it, in a folder that it removes. The program
keeps the memory that it has given back, since fresh memory of the system's would cost more than the work."""

import sys
import tempfile

from built import build, rows_of

KEEPS = "glibc.malloc.mmap_threshold=1000000000:glibc.malloc.trim_threshold=2000000000"
USES = ["lists", "dot_blocks"]
MAIN = """//! Times `split_block` and `stuff` beside copies of the same bytes.
#![tactic(auto)]

use dot_blocks::{split_block, stuff};
use lists::Bytes;
use std::io;
use std::time::Instant;

fn push_line(seed: usize, out: &mut Bytes) -> bool {
    let mut line = [0u8; 130];
    for k in 0..128usize {
        let byte = seed.wrapping_mul(7919).wrapping_add(k.wrapping_mul(31)) % 251;
        line[k] = if byte < 14 || byte == 46 {
            65
        } else {
            byte as u8
        };
    }
    line[128] = b'\\r';
    line[129] = b'\\n';
    out.extend(&line).is_ok()
}

fn least(times: &mut [u128; 4], i: usize, time: u128) {
    if i < 4 && time < times[i] {
        times[i] = time;
    }
}

fn measure(rt: &HostRuntime, count: usize, rounds: u32) -> io::Result<()> {
    let mut block = Bytes::new(rt.alloc());
    for i in 0..count {
        if !push_line(i, &mut block) {
            return Ok(());
        }
    }
    if block.extend(b".\\r\\n").is_err() {
        return Ok(());
    }
    let lines = match split_block(rt.alloc(), block.as_slice()) {
        Ok(lines) => lines,
        Err(_) => return Ok(()),
    };
    let mut kept = Bytes::new(rt.alloc());
    let mut times = [u128::MAX; 4];
    let mut good = true;
    for _ in 0..rounds {
        let start = Instant::now(rt)?;
        let mut fresh = Bytes::new(rt.alloc());
        good = good && fresh.extend(block.as_slice()).is_ok();
        least(&mut times, 0, start.elapsed(rt)?.as_nanos());
        drop(fresh);

        let start = Instant::now(rt)?;
        let split = split_block(rt.alloc(), block.as_slice());
        least(&mut times, 1, start.elapsed(rt)?.as_nanos());
        match split {
            Ok(found) => good = good && found.len() == count,
            Err(_) => good = false,
        }

        let start = Instant::now(rt)?;
        kept.clear();
        good = good && kept.extend(block.as_slice()).is_ok();
        least(&mut times, 2, start.elapsed(rt)?.as_nanos());

        let start = Instant::now(rt)?;
        kept.clear();
        good = good && stuff(&lines, &mut kept).is_ok();
        least(&mut times, 3, start.elapsed(rt)?.as_nanos());
        good = good && kept.len() == block.len();
    }
    let len = block.len();
    let copied = times[0];
    let split = times[1];
    let kept_copied = times[2];
    let stuffed = times[3];
    println!(rt; "{good} {len} {copied} {split} {kept_copied} {stuffed}")?;
    Ok(())
}

fn main(rt: HostRuntime) -> io::Result<()> {
    measure(&rt, 5600, 300)?;
    measure(&rt, 129000, 20)
}
"""


def measure(program):
    """The least times of some runs, by the block's length."""
    least = {}
    for row in rows_of(program, env={"GLIBC_TUNABLES": KEEPS}):
        good, *numbers = row.split()
        length, *times = map(int, numbers)
        if good != "true":
            sys.exit("a call failed")
        least[length] = [min(pair) for pair in zip(times, least.get(length, times))]
    return least


def main():
    with tempfile.TemporaryDirectory() as folder:
        for length, times in measure(build(folder, "block_bench", USES, MAIN)).items():
            copied, split, kept_copied, stuffed = times
            print(f"a block of {length / 1e6:.1f} MB:")
            print(f"  split_block {length / split:.1f} GB/s, {copied / split:.2f} times the rate of a copy to fresh memory")
            print(f"  stuff {length / stuffed:.1f} GB/s, {kept_copied / stuffed:.2f} times the rate of a copy to memory in use")


main()
