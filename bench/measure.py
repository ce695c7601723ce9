"""What the benchmarks share: the built program, and the least processor time and the greatest peak memory of some runs."""

import os
import subprocess
import sys

ROOT = os.path.dirname(os.path.dirname(os.path.abspath(__file__)))
PROGRAM = os.path.join(ROOT, "crates", "usebin", "out", "usebin")
PYTHON = "/usr/bin/python3"
TRIES = 5


def measure(words, output=os.devnull):
    """The least processor time of some runs, in seconds, and their greatest peak memory, in bytes. The runs are begun by a small
    process of their own, since a process's peak counts what the one that began it had."""
    run = subprocess.run([sys.executable, os.path.abspath(__file__), output, *words], capture_output=True, text=True)
    if run.returncode != 0:
        sys.exit(run.stderr.strip())
    time, peak = run.stdout.split()
    return float(time), int(peak)


def run_all(output, words):
    times, peaks = [], []
    for _ in range(TRIES):
        child = os.fork()
        if child == 0:
            try:
                os.dup2(os.open(output, os.O_WRONLY | os.O_CREAT | os.O_TRUNC), 1)
                os.dup2(os.open(os.devnull, os.O_WRONLY), 2)
                os.execv(words[0], words)
            finally:
                os._exit(127)
        _, status, usage = os.wait4(child, 0)
        if status != 0:
            sys.exit(f"{words[0]} ended with {status}")
        times.append(usage.ru_utime + usage.ru_stime)
        peaks.append(usage.ru_maxrss * 1024)
    print(min(times), max(peaks))


def yenc_peer(script):
    """The words that run a script over python3-yenc, written in C, or nothing where it isn't installed."""
    if os.system(f"{PYTHON} -c 'import _yenc' 2>/dev/null") == 0:
        return [PYTHON, "-c", script]
    print("python3-yenc isn't installed: no peer")
    return None


if __name__ == "__main__":
    run_all(sys.argv[1], sys.argv[2:])
