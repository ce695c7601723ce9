#!/usr/bin/env python3
"""Times the one-pass decoder and its parts on one core, beside a copy of the same bytes in the same run: the landing kernel over plain
characters and over lines of 128 characters with escapes, the gap kernel over the same lines, the CRC, whole and in short pieces, and
the decoder over the block of an article of random bytes, received in pieces of 65,536, beside a loop byte by byte and, where it is
installed, Debian's python3-sabyenc, which decodes with AVX2. It builds a program of its own over copies of the crates, in a folder
that it removes, which proves them: some minutes.

A further part is a function in MAIN, a call of `told`, and a row of WANTED."""

import os
import subprocess
import sys
import tempfile
import zlib

from built import build, rows_of
from measure import PYTHON

USES = ["crc_field", "landing_kernel", "gap_kernel", "fused_decoder"]
COPY = "copy"
# what is wanted of a part: so many times the rate of a copy, and so many MB/s
WANTED = {
    "land plain characters": (0.1, None),
    "land lines with escapes": (0.1, None),
    "land lines and their escapes": (None, None),
    "crc whole": (None, 2000),
    "crc in pieces of 60": (None, None),
    "decode a block": (None, 1000),
    "decode byte by byte": (None, None),
}
MAIN = """//! Times the parts of the decoder.
#![tactic(auto)]

use crc_field::Crc;
use fused_decoder::{Event, Fused};
use gap_kernel::land_spellings;
use landing_kernel::land;
use std::fs::File;
use std::io::{self, Read};
use std::time::Instant;

const LEN: usize = 1048576;

const PIECE: usize = 60;

const RECEIVED: usize = 65536;

fn plain_text(text: &mut [u8]) {
    for k in 0..text.len() {
        text[k] = 64 + (k % 97) as u8;
    }
}

// Lines of 128 characters as a writer makes them of random bytes: one character in 64 is an escape.
fn line_text(text: &mut [u8]) {
    let mut random = 12345u32;
    for k in 0..text.len() {
        random = random.wrapping_mul(1664525).wrapping_add(1013904223);
        let drawn = (random >> 16) % 256;
        let column = k % 130;
        text[k] = if column == 128 {
            13
        } else if column == 129 {
            10
        } else if drawn < 4 {
            61
        } else if drawn == 10 || drawn == 13 || drawn == 61 {
            64
        } else {
            drawn as u8
        };
    }
}

// Run after run, with the two characters behind each passed over.
fn land_all(buf: &mut [u8]) -> usize {
    let end = buf.len();
    let mut from = 0usize;
    let mut to = 0usize;
    for _ in 0..end {
        if to > from || from >= end {
            break;
        }
        let count = land(buf, from, to, end);
        to = to.saturating_add(count);
        from = from.saturating_add(count).saturating_add(2);
    }
    to
}

// The same with the escapes among them.
fn land_all_spellings(buf: &mut [u8]) -> usize {
    let end = buf.len();
    let mut from = 0usize;
    let mut to = 0usize;
    for _ in 0..end {
        if to > from || from >= end {
            break;
        }
        let run = land_spellings(buf, from, to, end);
        to = to.saturating_add(run.landed);
        from = from.saturating_add(run.used).saturating_add(2);
    }
    to
}

fn sum_pieces(bytes: &[u8]) -> u32 {
    let mut crc = Crc::new();
    for k in 0..bytes.len() / PIECE {
        crc.update(&bytes[k * PIECE..k * PIECE + PIECE]);
    }
    crc.value()
}

fn sum_whole(bytes: &[u8]) -> u32 {
    let mut crc = Crc::new();
    crc.update(bytes);
    crc.value()
}

fn told(rt: &HostRuntime, name: &str, start: Instant, check: usize) -> io::Result<()> {
    let time = start.elapsed(rt)?.as_nanos();
    println!(rt; "{time} {check} {name}")
}

fn measure(rt: &HostRuntime, text: &[u8], lines: &[u8], buf: &mut [u8]) -> io::Result<()> {
    if buf.len() != text.len() || buf.len() != lines.len() {
        return Ok(());
    }
    let start = Instant::now(rt)?;
    buf.copy_from_slice(text);
    told(rt, "copy", start, buf.len())?;

    let start = Instant::now(rt)?;
    let count = land_all(buf);
    told(rt, "land plain characters", start, count)?;

    buf.copy_from_slice(lines);
    let start = Instant::now(rt)?;
    let count = land_all(buf);
    told(rt, "land lines with escapes", start, count)?;

    buf.copy_from_slice(lines);
    let start = Instant::now(rt)?;
    let count = land_all_spellings(buf);
    told(rt, "land lines and their escapes", start, count)?;

    let start = Instant::now(rt)?;
    let sum = sum_whole(lines);
    told(rt, "crc whole", start, sum as usize)?;

    let start = Instant::now(rt)?;
    let sum = sum_pieces(lines);
    told(rt, "crc in pieces of 60", start, sum as usize)
}

// Hands the block at the buffer's front to a decoder, and answers how many bytes it gives.
fn decode(buf: &mut [u8], fused: &mut Fused) -> usize {
    let mut from = 0usize;
    let mut given = 0usize;
    for _ in 0..buf.len() {
        if from >= buf.len() {
            break;
        }
        let step = fused.step(&mut buf[from..]);
        given = given.saturating_add(step.wrote);
        from = from.saturating_add(step.used);
        if let Event::Range { .. } = step.event {
            fused.go_on();
        }
    }
    given
}

// The same of data lines, a byte at a time.
#[derive(Drop)]
struct Plain {
    crc: Crc,
    escape: bool,
    begins: bool,
}

fn decode_plain(buf: &mut [u8], plain: &mut Plain) -> usize {
    let mut given = 0usize;
    for k in 0..buf.len() {
        let byte = buf[k];
        if byte == 13 {
            continue;
        }
        if byte == 10 {
            plain.begins = true;
            continue;
        }
        if plain.begins && byte == 46 {
            plain.begins = false;
            continue;
        }
        plain.begins = false;
        if byte == 61 && !plain.escape {
            plain.escape = true;
            continue;
        }
        let lower = if plain.escape { 106 } else { 42 };
        plain.escape = false;
        let out = byte.wrapping_sub(lower);
        if given < buf.len() {
            buf[given] = out;
            given += 1;
        }
        plain.crc.update(&[out]);
    }
    given
}

// The time of decoding a block in pieces as they are received, without the copying of each into the buffer.
fn measure_block(rt: &HostRuntime, block: &[u8], buf: &mut [u8]) -> io::Result<()> {
    let mut fused = Fused::start();
    let mut plain = Plain {
        crc: Crc::new(),
        escape: false,
        begins: true,
    };
    let mut times = [0u128; 2];
    let mut given = [0usize; 2];
    for piece in block.chunks(RECEIVED) {
        if piece.len() > buf.len() {
            return Ok(());
        }
        let front = &mut buf[..piece.len()];
        front.copy_from_slice(piece);
        let start = Instant::now(rt)?;
        let count = decode(front, &mut fused);
        times[0] = times[0].saturating_add(start.elapsed(rt)?.as_nanos());
        given[0] = given[0].saturating_add(count);
        front.copy_from_slice(piece);
        let start = Instant::now(rt)?;
        let count = decode_plain(front, &mut plain);
        times[1] = times[1].saturating_add(start.elapsed(rt)?.as_nanos());
        given[1] = given[1].saturating_add(count);
    }
    println!(rt; "{} {} decode a block", times[0], given[0])?;
    println!(rt; "{} {} decode byte by byte", times[1], plain.crc.value())
}

fn read_block(rt: &HostRuntime, block: &mut [u8]) -> io::Result<usize> {
    let mut file = File::open(rt, "block")?;
    let mut len = 0usize;
    for _ in 0..block.len() {
        if len >= block.len() {
            break;
        }
        let count = file.read(&mut block[len..])?;
        if count == 0 {
            break;
        }
        len = len.saturating_add(count);
    }
    Ok(len)
}

fn main(rt: HostRuntime) -> io::Result<()> {
    let Ok(mut block) = vec![in rt.alloc(); 0u8; 2 * LEN] else {
        return Ok(());
    };
    // Where it is built there is no block, and nothing is measured.
    let Ok(len) = read_block(&rt, &mut block) else {
        return Ok(());
    };
    let Ok(mut text) = vec![in rt.alloc(); 0u8; LEN] else {
        return Ok(());
    };
    let Ok(mut lines) = vec![in rt.alloc(); 0u8; LEN] else {
        return Ok(());
    };
    let Ok(mut buf) = vec![in rt.alloc(); 0u8; LEN] else {
        return Ok(());
    };
    plain_text(&mut text);
    line_text(&mut lines);
    for _ in 0..200u32 {
        measure(&rt, &text, &lines, &mut buf)?;
        if len <= block.len() {
            measure_block(&rt, &block[..len], &mut buf)?;
        }
    }
    Ok(())
}
"""
LEN = 1048576
# how many bytes the article has
CONTENT = 739067


def article(content):
    """The block of an article with this content in lines of 128, as a news server sends it."""
    lines, line = [], bytearray()
    for at, byte in enumerate(content):
        spelled = (byte + 42) % 256
        edge = not line or len(line) >= 127 or at + 1 == len(content)
        if spelled in (0, 10, 13, 61) or edge and spelled in (9, 32):
            line += bytes([61, (spelled + 64) % 256])
        else:
            line.append(spelled)
        if len(line) >= 128 or at + 1 == len(content):
            lines.append(bytes(line))
            line = bytearray()
    head = f"=ybegin line=128 size={len(content)} name=random.bin".encode()
    end = f"=yend size={len(content)} crc32={zlib.crc32(content):08x}".encode()
    stuffed = [b"." + line if line.startswith(b".") else line for line in [head, *lines, end]]
    return b"\r\n".join(stuffed) + b"\r\n.\r\n"


def measure(program, folder):
    """The least time of each part over some runs, in nanoseconds."""
    least = {}
    for row in rows_of(program, cwd=folder):
        time, _, name = row.split(maxsplit=2)
        least[name] = min(int(time), least.get(name, int(time)))
    return least


PEER = """
import sabyenc3, sys, time
with open("block", "rb") as file:
    block = file.read()
reply = [b"222 0 <a@b>\\r\\n" + block[:65536]] + [block[k : k + 65536] for k in range(65536, len(block), 65536)]
least = 10**12
for _ in range(200):
    start = time.perf_counter_ns()
    content = sabyenc3.decode_usenet_chunks(reply)[0]
    least = min(least, time.perf_counter_ns() - start)
print(least, len(content))
"""


def peer(folder):
    """The least time of python3-sabyenc for the same block, in nanoseconds, or nothing where it isn't installed."""
    run = subprocess.run([PYTHON, "-c", PEER], cwd=folder, capture_output=True, text=True)
    if run.returncode != 0:
        print("python3-sabyenc isn't installed: no peer")
        return None
    time, count = run.stdout.split()
    if int(count) != CONTENT:
        sys.exit(f"the peer gives {count} bytes in place of {CONTENT}")
    return int(time)


def main():
    with tempfile.TemporaryDirectory() as folder:
        with open(os.path.join(folder, "block"), "wb") as file:
            file.write(article(os.urandom(CONTENT)))
        times = measure(build(folder, "decoder_bench", USES, MAIN), folder)
        theirs = peer(folder)
    copied = times[COPY] / LEN
    print(f"{COPY}: {1000 / copied:.0f} MB/s")
    for name, (ratio, least) in WANTED.items():
        bytes_given = CONTENT if name.startswith("decode") else LEN
        each = times[name] / bytes_given
        wanted = f", {ratio} wanted" if ratio else f", {least} MB/s wanted" if least else ""
        print(f"{name}: {1000 / each:.0f} MB/s, {copied / each:.2f} times the rate of the copy{wanted}")
    print(f"the block is decoded {times['decode byte by byte'] / times['decode a block']:.1f} times as fast as byte by byte, 3 wanted")
    if theirs is not None:
        print(f"python3-sabyenc: {1000 * CONTENT / theirs:.0f} MB/s; the block takes {times['decode a block'] / theirs:.2f} times its time")


main()
