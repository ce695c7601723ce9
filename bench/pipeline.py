#!/usr/bin/env python3
"""Whole runs of a pipeline core over 262,144 segments and over half as many, on 64 links with 32 segments outstanding on each: all
arrive; the first of two servers has none, and the second is its fallback; each of two servers has every second one. Prints the
time of each, and how many times as long twice as many segments take, which is to be at most 2.2. It builds a program of its own over copies of
ub_base and pipeline_core, and of the calls in machine_rows that keep the core's conditions, in a folder that it removes."""

import os
import shutil
import sys
import tempfile

from built import build, rows_of
from measure import ROOT

GREATEST_RATIO = 2.2
USES = ["pipeline_core"]
MAIN = """//! Times whole runs of `next` and `reply`.
#![tactic(auto)]

mod trial;

use crate::trial::Trial;
use pipeline_core::Outcome;
use std::io;
use std::time::Instant;

/// Which servers have which segments.
#[derive(Clone, Copy, PartialEq, Eq)]
enum Holdings {
    All,
    FallbackAlone,
    EverySecond,
}

fn outcome_of(holdings: Holdings, link: u32, segment: u32) -> Outcome {
    let here = match holdings {
        Holdings::All => true,
        Holdings::FallbackAlone => link % 2 == 1,
        Holdings::EverySecond => (link ^ segment) % 2 == 0,
    };
    if here { Outcome::Arrived } else { Outcome::NotHere }
}

fn fill(trial: &mut Trial) {
    for link in 0..64u32 {
        for _ in 0..33u32 {
            if trial.ask(link).is_none() {
                break;
            }
        }
    }
}

// Answers the oldest segment of a link, and asks the link for the next one.
fn answer(trial: &mut Trial, holdings: Holdings, link: u32) -> u64 {
    let answers = match trial.oldest(link) {
        Some(segment) => {
            trial.answer(link, outcome_of(holdings, link, segment));
            1
        }
        None => 0,
    };
    trial.ask(link);
    answers
}

fn run(rt: &HostRuntime, name: &str, holdings: Holdings, segments: u32) -> io::Result<()> {
    let mut server_of_link = [0u32; 64];
    for link in 0..64usize {
        server_of_link[link] = (link % 2) as u32;
    }
    let level = if holdings == Holdings::FallbackAlone { 1u8 } else { 0u8 };
    let levels = [0u8, level];
    let start = Instant::now(rt)?;
    let mut trial = match Trial::new(rt.alloc(), &server_of_link, &levels, segments, 32) {
        Some(trial) => trial,
        None => return Ok(()),
    };
    for link in 0..64u32 {
        trial.greet(link);
    }
    fill(&mut trial);
    let mut answers = 0u64;
    for _ in 0..1000000u32 {
        let before = answers;
        for link in 0..64u32 {
            answers = answers.wrapping_add(answer(&mut trial, holdings, link));
        }
        if trial.finished() || answers == before {
            break;
        }
    }
    let time = start.elapsed(rt)?.as_nanos();
    let good = trial.finished();
    println!(rt; "{name} {segments} {good} {answers} {time}")?;
    Ok(())
}

fn main(rt: HostRuntime) -> io::Result<()> {
    for segments in [131072u32, 262144] {
        run(&rt, "all", Holdings::All, segments)?;
        run(&rt, "fallback", Holdings::FallbackAlone, segments)?;
        run(&rt, "halves", Holdings::EverySecond, segments)?;
    }
    Ok(())
}
"""


def copy_trial(folder):
    """Copies the trial that the tests make of a core, with what is proved of it, to the program's crate."""
    rows, home = os.path.join(ROOT, "crates", "machine_rows"), os.path.join(folder, "crates", "pipeline_bench")
    shutil.copytree(os.path.join(rows, "proofs"), os.path.join(home, "proofs"))
    os.makedirs(os.path.join(home, "src"))
    shutil.copy(os.path.join(rows, "src", "trial.rt"), os.path.join(home, "src"))
    for place, _, names in os.walk(os.path.join(home, "proofs")):
        for name in names:
            with open(os.path.join(place, name), encoding="utf-8") as file:
                text = file.read()
            with open(os.path.join(place, name), "w", encoding="utf-8") as file:
                file.write(text.replace("Rattle.machine_rows.", "Rattle.pipeline_bench."))


def measure(program):
    """The least times of some runs, by what is run and the number of segments."""
    least = {}
    for row in rows_of(program):
        name, segments, good, _, time = row.split()
        if good != "true":
            sys.exit(f"{name} didn't finish")
        key = (name, int(segments))
        least[key] = min(int(time), least.get(key, int(time)))
    return least


def main():
    with tempfile.TemporaryDirectory() as folder:
        copy_trial(folder)
        least = measure(build(folder, "pipeline_bench", USES, MAIN))
    for name in ("all", "fallback", "halves"):
        half, whole = least[name, 131072], least[name, 262144]
        print(f"{name}: {whole / 1e9:.3f} s, {whole / half:.2f} times as long as half of it")
        if whole > GREATEST_RATIO * half:
            sys.exit(f"{name}: more than {GREATEST_RATIO} times as long")


main()
