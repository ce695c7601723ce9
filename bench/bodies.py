#!/usr/bin/env python3
"""Times the making and the reading of a body of 16 MiB of random bytes in memory, each the old way and the new one, beside the calls of
python3-yenc on the same bytes where it is installed, all in one run: the text of the data lines made as lines first, and in pieces; a saved
text read from its lines, and decoded in its own memory. It builds a program of its own over copies of the crates, in a folder that it
removes, which proves them: some minutes. Give `--cpu=x86-64-v3`, say, to build it for such a processor."""

import os
import subprocess
import sys
import tempfile

from built import build, rows_of
from measure import PROGRAM, PYTHON, TRIES

USES = ["lists", "yenc_bytes", "yenc_body", "yenc_text", "body_text"]
CONTENT = 16777216
MAIN = """//! Times the making and the reading of a body in memory.
#![tactic(auto)]

use body_text::decode_text;
use lists::{Bytes, Lines};
use std::alloc::Global;
use std::fs::File;
use std::io::{self, Read};
use std::time::Instant;
use yenc_body::{read_body, split_text};
use yenc_bytes::encode_lines;
use yenc_text::{PIECE, fill_piece};

const MOST: usize = 20_000_000;

fn told(rt: &HostRuntime, name: &str, start: Instant, check: usize) -> io::Result<()> {
    let time = start.elapsed(rt)?.as_nanos();
    println!(rt; "{time} {check} {name}")
}

fn lines_of(alloc: Global, content: &[u8]) -> usize {
    let mut lines = Lines::new(alloc);
    match encode_lines(content, 128, &mut lines) {
        Ok(()) => lines.len(),
        Err(_) => 0,
    }
}

fn pieces_of(content: &[u8], piece: &mut [u8; PIECE]) -> usize {
    let mut rest = content;
    let mut text = 0usize;
    for _ in 0..content.len() {
        if rest.is_empty() {
            return text;
        }
        let (used, len) = fill_piece(rest, 128, piece);
        rest = rest.split_at(used).1;
        text = text.saturating_add(len);
    }
    text
}

fn read_lines(alloc: Global, text: &[u8]) -> usize {
    match split_text(alloc, text) {
        Ok(lines) => match read_body(alloc, &lines) {
            Ok(part) => part.content.len(),
            Err(_) => 0,
        },
        Err(_) => 0,
    }
}

fn decode(text: Bytes) -> usize {
    match decode_text(text) {
        Ok(part) => part.content.len(),
        Err(_) => 0,
    }
}

fn measure(rt: &HostRuntime, content: &[u8], text: &[u8], piece: &mut [u8; PIECE]) -> io::Result<()> {
    let start = Instant::now(rt)?;
    let count = lines_of(rt.alloc(), content);
    told(rt, "data lines as a list", start, count)?;

    let start = Instant::now(rt)?;
    let count = pieces_of(content, piece);
    told(rt, "their text in pieces", start, count)?;

    let start = Instant::now(rt)?;
    let count = read_lines(rt.alloc(), text);
    told(rt, "a saved text, its lines read", start, count)?;

    // The copy is made before the clock starts: a command reads the text into such memory.
    let mut copy = Bytes::new(rt.alloc());
    let Ok(()) = copy.extend(text) else {
        return Ok(());
    };
    let start = Instant::now(rt)?;
    let count = decode(copy);
    told(rt, "a saved text, decoded in place", start, count)
}

fn read_file(rt: &HostRuntime, name: &str, bytes: &mut [u8]) -> io::Result<usize> {
    let mut file = File::open(rt, name)?;
    let mut len = 0usize;
    for _ in 0..bytes.len() {
        if len >= bytes.len() {
            break;
        }
        let count = file.read(&mut bytes[len..])?;
        if count == 0 {
            break;
        }
        len = len.saturating_add(count);
    }
    Ok(len)
}

fn main(rt: HostRuntime) -> io::Result<()> {
    let Ok(mut content) = vec![in rt.alloc(); 0u8; MOST] else {
        return Ok(());
    };
    // Where it is built there is no file, and nothing is measured.
    let Ok(content_len) = read_file(&rt, "content", &mut content) else {
        return Ok(());
    };
    let Ok(mut text) = vec![in rt.alloc(); 0u8; MOST] else {
        return Ok(());
    };
    let Ok(text_len) = read_file(&rt, "text", &mut text) else {
        return Ok(());
    };
    let mut piece = [0u8; PIECE];
    for _ in 0..5u32 {
        if content_len <= content.len() && text_len <= text.len() {
            measure(&rt, &content[..content_len], &text[..text_len], &mut piece)?;
        }
    }
    Ok(())
}
"""
PEER = """
import _yenc, sys, time
for name in ("encode", "decode"):
    call, path = getattr(_yenc, name), sys.argv[1] if name == "encode" else sys.argv[2]
    times = []
    for _ in range(5):
        with open(path, "rb") as source, open("/dev/null", "wb") as sink:
            start = time.process_time()
            call(source, sink, 0)
            times.append(time.process_time() - start)
    print(int(min(times) * 1e9), 0, f"python3-yenc, {name}")
"""


def least(rows):
    found = {}
    for row in rows:
        time, _, name = row.split(" ", 2)
        found[name] = min(int(time), found.get(name, int(time)))
    return found


def main():
    with tempfile.TemporaryDirectory() as folder:
        program = build(folder, "bodies", USES, MAIN, sys.argv[1:])
        content, text, data = (os.path.join(folder, name) for name in ("content", "text", "data"))
        with open(content, "wb") as file:
            file.write(os.urandom(CONTENT))
        with open(text, "wb") as file:
            subprocess.run([PROGRAM, "encode", "--input", content], stdout=file, check=True)
        with open(text, "rb") as source, open(data, "wb") as file:
            lines = source.read()
            file.write(lines[lines.index(b"\n") + 1 : lines.rindex(b"=yend")])
        rows = list(rows_of(program, cwd=folder))
        if os.system(f"{PYTHON} -c 'import _yenc' 2>/dev/null") == 0:
            for _ in range(TRIES):
                run = subprocess.run([PYTHON, "-c", PEER, content, data], capture_output=True, text=True, check=True)
                rows += run.stdout.splitlines()
        print(f"load {os.getloadavg()[0]:.1f}")
        for name, time in least(rows).items():
            print(f"{name:32} {time / 1e6:7.2f} ms {CONTENT / time * 1e3:6.0f} MB/s of content")


main()
