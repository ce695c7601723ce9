#!/usr/bin/env python3
"""Checks an NZB of about 60 MB with 262,144 segments with the built program. Prints the processor time and the peak memory as
a multiple of the text, beside those of expat (by way of Python, which hears no element) and of xmllint. Then checks NZBs of one
tag with 160,000 and 320,000 attributes."""

import os
import shutil
import tempfile

from measure import PROGRAM, PYTHON, measure

SEGMENTS = 262144
FILES = 512
ID = "part{}of{}.{:0>140}@powerpost2000AA.local"
HEAD = """<?xml version="1.0" encoding="UTF-8"?>
<!DOCTYPE nzb PUBLIC "-//newzBin//DTD NZB 1.1//EN" "http://www.newzbin.com/DTD/nzb/nzb-1.1.dtd">
<nzb xmlns="http://www.newzbin.com/DTD/2003/nzb">
<head>
<meta type="category">Test</meta>
</head>
"""
FILE = """<file poster="A &lt;a@example.org&gt;" date="1071674882" subject="&quot;x{}.bin&quot; yEnc (1/{})">
<groups>
<group>alt.binaries.test</group>
</groups>
<segments>
"""
PEER = """
import sys, xml.parsers.expat
with open(sys.argv[1], "rb") as source:
    xml.parsers.expat.ParserCreate().ParseFile(source)
"""


def write(path):
    total = SEGMENTS // FILES
    with open(path, "w") as file:
        file.write(HEAD)
        for k in range(FILES):
            file.write(FILE.format(k, total))
            for i in range(1, total + 1):
                file.write(f'<segment bytes="739067" number="{i}">{ID.format(i, total, k * total + i)}</segment>\n')
            file.write("</segments>\n</file>\n")
        file.write("</nzb>\n")


def write_wide(path, attributes):
    with open(path, "w") as file:
        file.write("<nzb")
        for i in range(attributes):
            file.write(f' a{i:07}=""')
        file.write("/>")


def check_wide(path):
    for attributes in (160000, 320000):
        write_wide(path, attributes)
        seconds, peak = measure([PROGRAM, "check", "--nzb", path])
        print(f"one tag of {attributes} attributes: {seconds:.2f} s, peak memory {peak / 1e6:.0f} MB")


def main():
    with tempfile.TemporaryDirectory() as folder:
        path, out = os.path.join(folder, "a.nzb"), os.path.join(folder, "out")
        write(path)
        size = os.path.getsize(path)
        seconds, peak = measure([PROGRAM, "check", "--nzb", path], out)
        with open(out) as file:
            print(" ".join(file.read().split()))
        print(f"usebin: {seconds:.2f} s for {size / 1e6:.0f} MB, {size / seconds / 1e6:.0f} MB/s, peak memory {peak / size:.1f} times the text")
        check_wide(os.path.join(folder, "wide.nzb"))
        theirs, peak = measure([PYTHON, "-c", PEER, path])
        print(f"expat: {theirs:.2f} s, peak memory {peak / 1e6:.0f} MB; usebin takes {seconds / theirs:.2f} times its time")
        if shutil.which("xmllint") is None:
            print("xmllint isn't installed")
            return
        theirs, peak = measure([shutil.which("xmllint"), "--noout", path])
        print(f"xmllint: {theirs:.2f} s, peak memory {peak / size:.1f} times the text; usebin takes {seconds / theirs:.2f} times its time")


if __name__ == "__main__":
    main()
