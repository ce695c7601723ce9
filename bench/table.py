#!/usr/bin/env python3
"""Prints, as a table, the processor time and the peak memory of encode, decode and check on the built program and on a peer that others
wrote, all in one run, and the ratios of ours to theirs. A peer that isn't installed has no row."""

import os
import platform
import shutil
import tempfile

import check as nzb
from measure import PROGRAM, PYTHON, measure, yenc_peer

CONTENT = 16777216
PARTS = 6
ENCODER = 'import _yenc, sys; [_yenc.encode(open(path, "rb"), open("/dev/null", "wb"), 0) for path in sys.argv[1:]]'
DECODER = 'import _yenc, sys; [_yenc.decode(open(path, "rb"), open("/dev/null", "wb"), 0) for path in sys.argv[1:]]'


def row(name, size, ours, peer, theirs):
    seconds, peak = ours
    time, memory = theirs
    print(f"| {name} | {size / 1e6:.1f} | {seconds:.2f} | {size / seconds / 1e6:.0f} | {peak / 1e6:.0f} | {peer} | {time:.2f} | {memory / 1e6:.0f} "
          f"| {seconds / time:.2f} | {peak / memory:.2f} |")


def data_lines(body, path):
    """Writes the data lines of a body of one part to a file of their own, since the peer reads them alone, and answers the body's size."""
    with open(body, "rb") as file:
        lines = file.read()
    start = lines.index(b"\n") + 1
    if lines.startswith(b"=ypart", start):
        start = lines.index(b"\n", start) + 1
    with open(path, "wb") as file:
        file.write(lines[start : lines.rindex(b"=yend")])
    return len(lines)


def behind_each_other(commands, outputs):
    """The processor time of a run for each command, added up, and the greatest peak."""
    runs = [measure(words, output) for words, output in zip(commands, outputs)]
    return sum(seconds for seconds, _ in runs), max(peak for _, peak in runs)


def parts(folder):
    """A file of some parts: a run of ours for each part behind the other, beside one run of the peer that makes all of its calls."""
    plain = os.path.join(folder, "parts")
    pieces, bodies_of, data = ([os.path.join(folder, f"{kind}{k}") for k in range(PARTS)] for kind in ("piece", "part", "data"))
    with open(plain, "wb") as file:
        for piece in pieces:
            content = os.urandom(CONTENT)
            file.write(content)
            with open(piece, "wb") as one:
                one.write(content)
    encoder, decoder = yenc_peer(ENCODER), yenc_peer(DECODER)
    if encoder is None:
        return
    encode = [[PROGRAM, "encode", "--input", plain, "--part-size", str(CONTENT), "--part", str(k + 1)] for k in range(PARTS)]
    row(f"encode, {PARTS} parts", PARTS * CONTENT, behind_each_other(encode, bodies_of), "python3-yenc", measure(encoder + pieces))
    size = sum(data_lines(body, lines) for body, lines in zip(bodies_of, data))
    decode = [[PROGRAM, "decode", "--input", body] for body in bodies_of]
    row(f"decode, {PARTS} parts", size, behind_each_other(decode, [os.devnull] * PARTS), "python3-yenc", measure(decoder + data))


def bodies(folder):
    plain, body, data = (os.path.join(folder, name) for name in ("plain", "body", "data"))
    for kind, content in (("random bytes", os.urandom(CONTENT)), ("zeros", bytes(CONTENT))):
        with open(plain, "wb") as file:
            file.write(content)
        ours = measure([PROGRAM, "encode", "--input", plain], body)
        encoder, decoder = yenc_peer(ENCODER), yenc_peer(DECODER)
        if encoder is None:
            return
        row(f"encode, {kind}", CONTENT, ours, "python3-yenc", measure(encoder + [plain]))
        size = data_lines(body, data)
        row(f"decode, {kind}", size, measure([PROGRAM, "decode", "--input", body]), "python3-yenc", measure(decoder + [data]))


def indexes(folder):
    path = os.path.join(folder, "a.nzb")
    nzb.write(path)
    size = os.path.getsize(path)
    ours = measure([PROGRAM, "check", "--nzb", path])
    row("check", size, ours, "expat by Python", measure([PYTHON, "-c", nzb.PEER, path]))
    if shutil.which("xmllint") is not None:
        row("check", size, ours, "xmllint", measure([shutil.which("xmllint"), "--noout", path]))


def main():
    print(f"{platform.machine()}, {os.cpu_count()} processors, load {os.getloadavg()[0]:.1f}")
    print()
    print("| Command | MB | usebin, s | MB/s | MB of memory | Peer | its s | its MB of memory | ratio of times | ratio of memory |")
    print("|---|---|---|---|---|---|---|---|---|---|")
    with tempfile.TemporaryDirectory() as folder:
        bodies(folder)
        parts(folder)
        indexes(folder)


main()
