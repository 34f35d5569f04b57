#!/usr/bin/env -S python3 -B
"""Proves and builds the program: `./gateway --prove`.

The crates that the program stands on are proved by the scheduler of the gate, `rt ci`, on a copy of them without what the gate
tries besides, the edits that must be refused. What is proved so is kept for the gate by the toolchain. Tells which crates are
proved, which are under way, and a guess of the time that is left.
"""
import os
import re
import shutil
import subprocess
import sys
import tempfile
import time
from pathlib import Path

from building import NO_PROGRAM, PROVED, ROOT, Line, alone, install, is_fresh, run_builder, started, tell
from proof_jobs import proof_jobs

FOLDER = ROOT / "out/proving"
LOG = FOLDER / "log"
TOP = "gw_program"
# Seconds of processor for a line of code, contract, definition or proof, until it is known of this machine.
USUAL = 0.034
PROVED_LINE = re.compile(r"rt: (\w+) (proved|NOT PROVED|is kept)\b")
# How the report goes on of a crate that a library of its kept from being proved.
BY_LIBRARY = "NOT PROVED: its library"


def crates_below(top):
    """Each crate that one stands on, and itself, with the crates of the repository that it names; those below come first."""
    named = {}
    for line in (ROOT / "crates.txt").read_text().splitlines():
        if ":" in line and not line.startswith("#"):
            front, below = line.split(":", 1)
            named[front.split()[0]] = (line, below.split())
    found = {}

    def add(name):
        if name in named and name not in found:
            line, below = named[name]
            for it in below:
                add(it)
            found[name] = (line, [it for it in below if it in named])

    add(top)
    return found


def lines_of(folder):
    files = [*folder.glob("src/**/*.rt"), *folder.glob("specs/**/*.antt"), *folder.glob("proofs/**/*.antt")]
    return sum(it.read_bytes().count(b"\n") for it in files)


def copy(crates, to):
    """Copies the crates to the top of a repository of their own, but for what earlier builds made and the edits."""
    (to / ".git").mkdir(parents=True)
    (to / "crates.txt").write_text("".join(f"{line}\n" for line, _ in crates.values()))
    shutil.copy(ROOT / "HANDLES", to)
    for name in crates:
        shutil.copytree(ROOT / "crates" / name, to / "crates" / name, ignore=shutil.ignore_patterns("out", "must-fail"))


class Course:
    """How far the proofs are."""

    def __init__(self, crates, folder):
        self.crates, self.folder = crates, folder
        self.weights = {name: lines_of(folder / "crates" / name) for name in crates}
        self.told, self.kept, self.failed = set(), set(), []
        # Processor time of crates, as the number of those under way times the time, and when that was last looked at.
        self.busy, self.looked = 0.0, time.monotonic()
        self.lanes = len(os.sched_getaffinity(0))

    def hear(self, line):
        """Takes a line of the gate's report; gives the crate that is done by it, if one is."""
        match = PROVED_LINE.match(line)
        if not match or match[1] not in self.crates or match[1] in self.told:
            return None
        self.told.add(match[1])
        if match[2] == "is kept":
            self.kept.add(match[1])
        elif match[2] != "proved":
            self.failed.append(match[1])
        return match[1]

    def proved(self):
        """How many crates are proved."""
        return len(self.told) - len(self.failed)

    def under_way(self):
        """The crates that are being proved: their folder of what is made stands."""
        return [it for it in self.crates if it not in self.told and (self.folder / "crates" / it / "out").exists()]

    def look(self):
        now = time.monotonic()
        self.busy += len(self.under_way()) * (now - self.looked)
        self.looked = now

    def seconds_left(self):
        """A guess: all that is left on all processors, or the longest chain of what waits for one another."""
        done = sum(self.weights[it] for it in self.told - self.kept)
        halves = {it: self.weights[it] / 2 for it in self.under_way()}
        spent = done + sum(halves.values())
        each = self.busy / spent if done > 3000 else USUAL
        left = {it: halves.get(it, self.weights[it]) for it in self.crates if it not in self.told}
        chains = {}
        for name, (_, below) in self.crates.items():
            chains[name] = left.get(name, 0) + max((chains[it] for it in below), default=0)
        return each * max(sum(left.values()) / self.lanes, max(chains.values(), default=0))


def spelled(seconds):
    return f"{seconds:.0f} s" if seconds < 90 else f"{seconds / 60:.0f} min"


def follow(process, course, log):
    """Tells of each crate once it is proved, and on a terminal each second how far it is."""
    line, begun = Line(), time.monotonic()
    os.set_blocking(process.stdout.fileno(), False)
    text = b""
    while True:
        ended = process.poll() is not None
        text += process.stdout.read() or b""
        *lines, text = text.split(b"\n")
        for it in lines:
            log.write(it + b"\n")
            told = it.decode(errors="replace")
            name = course.hear(told)
            if name in course.failed:
                # What stands on it isn't tried, and isn't told.
                if BY_LIBRARY not in told:
                    line.clear()
                    tell(f"{name} isn't proved, nor what stands on it; see {LOG}")
            elif name and not line.moves:
                tell(f"{name}, {course.proved()} of {len(course.crates)}, after {spelled(time.monotonic() - begun)};"
                     f" about {spelled(course.seconds_left())} more")
        course.look()
        if line.moves:
            line.show(f"{course.proved()} of {len(course.crates)} crates are proved, after {spelled(time.monotonic() - begun)};"
                      f" about {spelled(course.seconds_left())} more; under way: {' '.join(course.under_way())}")
        if ended:
            line.clear()
            return process.returncode
        time.sleep(1)


def prove_in(place):
    crates, begun = crates_below(TOP), time.time()
    copy(crates, place)
    course = Course(crates, place)
    tell(f"proving the program's {len(crates)} crates, which takes up to an hour the first time; the report is in {LOG}")
    environment = {"RT_JOBS": str(proof_jobs())} | {name: it for name, it in os.environ.items() if name != "CI"}
    with open(LOG, "wb") as log:
        with started(["rt", "ci"], cwd=place, env=environment, stdout=subprocess.PIPE, stderr=subprocess.STDOUT) as process:
            status = follow(process, course, log)
    built = place / "crates" / TOP / "out" / TOP
    if status or not built.exists():
        why = f": {', '.join(course.failed)} can't be proved" if course.failed else ""
        tell(f"the program can't be built{why}; see {LOG}")
        return NO_PROGRAM
    install(built, PROVED, begun)
    tell(f"the program is proved and built, after {spelled(time.time() - begun)}")
    return 0


def prove():
    with alone(FOLDER, "proves the program"):
        if is_fresh(PROVED):
            return 0
        # Not in this folder: the gate takes sources that lie about in a repository for a fault.
        with tempfile.TemporaryDirectory(prefix="gateway-prove-", ignore_cleanup_errors=True) as room:
            return prove_in(Path(room) / "repository")


if __name__ == "__main__":
    sys.exit(run_builder(prove))
