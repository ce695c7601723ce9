"""What the benchmarks of library functions share: a program of their own over copies of the crates, which the build proves."""

import os
import shutil
import subprocess
import sys

from measure import ROOT, TRIES


def crates_below(uses):
    """The lines of crates.txt, by their names, of some crates and of those that they stand on."""
    uses_of = {}
    with open(os.path.join(ROOT, "crates.txt"), encoding="utf-8") as file:
        for line in file:
            name, colon, below = line.split("#")[0].partition(":")
            if colon:
                uses_of[name.split()[0]] = below.split()
    found, waiting = {}, list(uses)
    while waiting:
        name = waiting.pop()
        if name in uses_of and name not in found:
            found[name] = f"{name}: {' '.join(uses_of[name])}\n"
            waiting += uses_of[name]
    return found


def build(folder, name, uses, main, words=()):
    """Builds the program of this name, whose text is `main` and which uses these crates, in a folder. They and those below them are
    copied from the repository. `words` are further ones for the build, such as the processor that it is for."""
    crates = crates_below(uses)
    for crate in crates:
        for part in ("src", "specs", "proofs"):
            place = os.path.join(ROOT, "crates", crate, part)
            if os.path.isdir(place):
                shutil.copytree(place, os.path.join(folder, "crates", crate, part))
    home = os.path.join(folder, "crates", name)
    os.makedirs(os.path.join(home, "src"), exist_ok=True)
    with open(os.path.join(folder, "crates.txt"), "w", encoding="utf-8") as file:
        file.write("".join(crates.values()) + f"{name}: {' '.join(uses)}\n")
    with open(os.path.join(home, "src", "main.rt"), "w", encoding="utf-8") as file:
        file.write(main)
    built = subprocess.run(["rt", "run", *words], cwd=home, capture_output=True, text=True)
    if built.returncode != 0:
        sys.exit(built.stdout + built.stderr)
    return os.path.join(home, "out", name)


def rows_of(program, **settings):
    """What some runs of the program print, a row at a time."""
    for _ in range(TRIES):
        run = subprocess.run([program], capture_output=True, text=True, check=True, **settings)
        yield from run.stdout.splitlines()
