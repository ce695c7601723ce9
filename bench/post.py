#!/usr/bin/env python3
"""Posts 100 MB of random bytes with the built program to a news server on the loopback (Debian's inn2, started by
outside/inn), and with uuenview, which calls a program of the server's for each article, in the same run and in turn. Prints
the rates by the clock, and the processor time of each."""

import os
import resource
import subprocess
import sys
import tempfile
import time

from measure import PROGRAM, ROOT

SIZE = 100_000_000
TRIES = 3
# As many lines as a part of 750,000 bytes has.
LINES = 5859
SERVER = """
check=bench/post folder=$1
. "$2/outside/inn"
start_news_server || exit 1
echo "$open $server"
read line
"""


def timed(words, environment=None):
    """The time by the clock and the processor time of a run, in seconds."""
    before, start = resource.getrusage(resource.RUSAGE_CHILDREN), time.monotonic()
    ended = subprocess.run(words, stdout=subprocess.DEVNULL, env=environment)
    clock, after = time.monotonic() - start, resource.getrusage(resource.RUSAGE_CHILDREN)
    if ended.returncode != 0:
        sys.exit(f"{words[0]} ended with {ended.returncode}")
    return clock, after.ru_utime + after.ru_stime - before.ru_utime - before.ru_stime


def best(runs):
    return min(clock for clock, _ in runs), min(cpu for _, cpu in runs)


def main():
    with tempfile.TemporaryDirectory() as folder:
        os.chmod(folder, 0o755)
        server = subprocess.Popen(["sh", "-c", SERVER, "sh", os.path.join(folder, "server"), ROOT],
                                  stdin=subprocess.PIPE, stdout=subprocess.PIPE, text=True)
        said = server.stdout.readline().split()
        if len(said) != 2:
            sys.exit("no news server")
        port, home = said
        path = os.path.join(folder, "random.bin")
        with open(path, "wb") as file:
            for _ in range(SIZE // 1_000_000):
                file.write(os.urandom(1_000_000))
        words = [PROGRAM, "post", "--input", path, "--server", f"127.0.0.1:{port}", "--from", "me@example.org",
                 "--group", "alt.binaries.test", "--domain", "example.org", "--token"]
        theirs = ["uuenview", "-y", f"-{LINES}", "-p", "alt.binaries.test", "-f", "me@example.org", "-s", "bench", path]
        environment = dict(os.environ, NNTPSERVER="127.0.0.1", INNCONF=f"{home}/etc/inn.conf",
                           INEWS=f"/usr/lib/news/bin/inews -h -O -S -p {port}")
        ours_runs, their_runs = [], []
        for i in range(TRIES):
            ours_runs.append(timed(words + [f"bench{os.getpid()}-{i}"]))
            their_runs.append(timed(theirs, environment))
        server.communicate("\n")
        clock, cpu = best(ours_runs)
        print(f"usebin: {clock:.2f} s, {SIZE / clock / 1e6:.0f} MB/s, {cpu:.2f} s of processor time")
        their_clock, their_cpu = best(their_runs)
        print(f"uuenview: {their_clock:.2f} s, {SIZE / their_clock / 1e6:.0f} MB/s, {their_cpu:.2f} s of processor time")
        print(f"usebin takes {clock / their_clock:.2f} times its time, and {cpu / their_cpu:.2f} times its processor time")


main()
