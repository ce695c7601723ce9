#!/usr/bin/env python3
"""Indexes overviews of 65,536, 131,072 and 262,144 lines with the built program, which a server in this file gives it over the
loopback, and prints the program's processor time for each, its peak memory, and how many times as long twice the lines take, by the two
doublings together, which is to be at most 2.2. The lines come in an order in which the parts of each file are scattered."""

import os
import re
import socket
import sys
import threading

from measure import PROGRAM, measure

LINES = (65_536, 131_072, 262_144)
PARTS = 100
WANTED = 2.2


def line(number, lines):
    """The overview line of an article; the parts of a file stand far from one another, the last one first."""
    files = (lines + PARTS - 1) // PARTS
    file, part = number % files, PARTS - number // files
    return (f'{number + 1}\t"file{file:05}.bin" yEnc ({part}/{PARTS})\tposter <p@example.org>\tThu, 01 Jan 2026 02:00:10 +0200\t'
            f"<part{part}of{PARTS}.{file}@example.org>\t\t{750000 + part}\t5800\r\n").encode()


class Server(threading.Thread):
    """A news server with one newsgroup, whose overview it has ready in blocks of 10,000 lines."""

    def __init__(self, lines):
        super().__init__(daemon=True)
        self.count = lines
        self.blocks = {}
        for first in range(1, lines + 1, 10_000):
            last = min(first + 9_999, lines)
            text = b"".join(line(number - 1, lines) for number in range(first, last + 1))
            self.blocks[f"{first}-{last}"] = b"224 follows\r\n" + text + b".\r\n"
        self.socket = socket.create_server(("127.0.0.1", 0))
        self.port = self.socket.getsockname()[1]

    def run(self):
        while True:
            link, _ = self.socket.accept()
            with link:
                link.sendall(b"200 ready\r\n")
                for command in link.makefile("rb"):
                    words = command.decode().split()
                    if words[0] == "GROUP":
                        link.sendall(f"211 {self.count} 1 {self.count} {words[1]}\r\n".encode())
                    elif words[0] == "OVER":
                        link.sendall(self.blocks.get(words[1], b"423 none\r\n"))
                    else:
                        break


def main():
    times = []
    for lines in LINES:
        server = Server(lines)
        server.start()
        words = [PROGRAM, "index", "--server", f"127.0.0.1:{server.port}", "--group", "alt.binaries.test", "--first", "1",
                 "--last", str(lines)]
        output = f"/tmp/bench-index-{os.getpid()}.nzb"
        cpu, peak = measure(words, output)
        with open(output, encoding="ascii") as file:
            found = len(re.findall("<segment ", file.read()))
        os.unlink(output)
        if found != lines:
            sys.exit(f"{found} segments in place of {lines}")
        times.append(cpu)
        print(f"{lines} lines: {cpu:.2f} s of processor time, {lines / cpu / 1e6:.2f} million lines a second, {peak / 1e6:.0f} MB peak")
    ratio = (times[-1] / times[0]) ** (1 / (len(LINES) - 1))
    print(f"twice the lines take {ratio:.2f} times the time (at most {WANTED})")
    if ratio > WANTED:
        sys.exit(1)


main()
