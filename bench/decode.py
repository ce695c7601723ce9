#!/usr/bin/env python3
"""Decodes the body of 16 MiB of random bytes, and the same behind so many other lines that the saved text has 64 MiB, with
the built program. Prints MB/s of text by processor time and the peak memory, beside those of python3-yenc's decoder (written
in C, of the data lines alone) where it is installed."""

import os
import tempfile

from measure import PROGRAM, measure, yenc_peer

PEER = """
import _yenc, sys
with open(sys.argv[1], "rb") as source, open("/dev/null", "wb") as sink:
    _yenc.decode(source, sink, 0)
"""
CONTENT = 16777216
TEXT = 67108864
FILLER = b"x" * 126 + b"\r\n"


def write(path, *pieces):
    with open(path, "wb") as file:
        for piece in pieces:
            file.write(piece)


def main():
    with tempfile.TemporaryDirectory() as folder:
        plain, body, text, data, out = (os.path.join(folder, name) for name in ("plain", "body", "text", "data", "out"))
        content = os.urandom(CONTENT)
        write(plain, content)
        measure([PROGRAM, "encode", "--input", plain], body)
        with open(body, "rb") as file:
            lines = file.read()
        left = TEXT - len(lines)
        write(text, FILLER * (left // len(FILLER)), b"\n" * (left % len(FILLER)), lines)
        write(data, lines[lines.index(b"\n") + 1 : lines.rindex(b"=yend")])
        for name, path in (("the body", body), ("64 MiB of text", text)):
            seconds, peak = measure([PROGRAM, "decode", "--input", path], out)
            with open(out, "rb") as file:
                if file.read() != content:
                    raise SystemExit("decoded to other bytes")
            size = os.path.getsize(path)
            print(f"{name}: {seconds:.2f} s, {size / seconds / 1e6:.0f} MB/s of text, peak memory {peak / 1e6:.0f} MB")
        ours, _ = measure([PROGRAM, "decode", "--input", body])
        other = yenc_peer(PEER)
        if other is not None:
            theirs, _ = measure(other + [data])
            print(f"python3-yenc: {theirs:.2f} s for the data lines, usebin takes {ours / theirs:.2f} times its time for the body")


main()
