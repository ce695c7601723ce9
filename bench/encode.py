#!/usr/bin/env python3
"""Encodes 16 MiB of random bytes and of zeros with the built program, and prints MB/s of processor time and the peak
memory, beside those of python3-yenc's encoder (written in C) where it is installed. Give another size in MiB to see
that the time is linear. Then part 1,000 of a sparse file of 500 GB, beside a file of one such part."""

import os
import sys
import tempfile

from measure import PROGRAM, measure, yenc_peer

PEER = """
import _yenc, sys
with open(sys.argv[1], "rb") as source, open("/dev/null", "wb") as sink:
    _yenc.encode(source, sink, 0)
"""
PART = 16777216


def whole_files(folder, size):
    other = yenc_peer(PEER)
    for kind, content in (("random", os.urandom(size)), ("zeros", bytes(size))):
        path = os.path.join(folder, kind)
        with open(path, "wb") as file:
            file.write(content)
        seconds, peak = measure([PROGRAM, "encode", "--input", path])
        print(f"{kind}: {size / seconds / 1e6:.0f} MB/s of processor time, peak memory {peak / size:.2f} times the file")
        if other is not None:
            theirs, _ = measure(other + [path])
            print(f"{kind}: python3-yenc {size / theirs / 1e6:.0f} MB/s, usebin takes {seconds / theirs:.2f} times its time")


def part_of_sparse_file(folder):
    sparse, one = os.path.join(folder, "sparse"), os.path.join(folder, "one")
    for path, size in ((sparse, 500 * 10**9), (one, PART)):
        with open(path, "wb") as file:
            file.truncate(size)
    of_many, _ = measure([PROGRAM, "encode", "--input", sparse, "--part", "1000"])
    alone, _ = measure([PROGRAM, "encode", "--input", one])
    print(f"part 1,000 of a sparse file of 500 GB: {of_many:.2f} s, {of_many / alone:.2f} times a file of one part")


def main():
    size = int(sys.argv[1]) * 1024 * 1024 if len(sys.argv) > 1 else PART
    with tempfile.TemporaryDirectory() as folder:
        whole_files(folder, size)
        part_of_sparse_file(folder)


main()
