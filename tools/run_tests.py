#!/usr/bin/env -S python3 -B
"""Runs the tests in minutes, also where nothing is proved: ./test

The program is the proved one where it stands, or else one without proof, which is built first; what can't be tried on that is
named. Runs the scripts of checks/scripts on it, and beside them the tests of the crates, built without proof. Ends with a line
`N passed, N failed`, of scripts and crates, and with status 1 where one failed; 3 where there is no program. What each one
wrote stands in out/test/.
"""
import os
import subprocess
import sys
import time
from concurrent.futures import ThreadPoolExecutor, as_completed
from dataclasses import dataclass, field
from pathlib import Path

import build_unproved
from building import NO_PROGRAM, PROVED, ROOT, UNPROVED, is_fresh, path_without_hints, run_builder

LOGS = ROOT / "out/test"
# The crates of tests; those that take longest come first.
CRATES = ("test_threads", "test_server", "test_programs", "test_faults", "test_layers")
# How many seconds one may take, one test of a crate may, and how many lines of one that failed are shown.
LIMIT, TEST_LIMIT, SHOWN = 900, 400, 40
# For a program without proof, whose addresses are checked as it runs (see `gateway`).
CHECKS = "detect_stack_use_after_return=0:quarantine_size_mb=8:thread_local_quarantine_size_kb=64"


@dataclass
class Part:
    """A script, or a crate's tests: what is run where, and with which words of the environment."""

    name: str
    words: list
    folder: Path = ROOT
    environment: dict = field(default_factory=dict)
    place: str = "beside"

    def run(self):
        """Runs it; gives itself, whether it passed, its seconds and what it wrote."""
        begun, log = time.monotonic(), LOGS / f"{self.name}.log"
        environment = {**os.environ, **self.environment}
        with open(log, "wb") as file:
            try:
                ran = subprocess.run(self.words, cwd=self.folder, env=environment, stdin=subprocess.DEVNULL, stdout=file,
                                     stderr=subprocess.STDOUT, timeout=LIMIT)
                passed = ran.returncode == 0
            except subprocess.TimeoutExpired:
                file.write(f"\nended after {LIMIT} s\n".encode())
                passed = False
        return self, passed, time.monotonic() - begun, log.read_text(errors="replace").splitlines()


def tell(text):
    print(f"test: {text}", flush=True)


def scripts(program, is_proved):
    """The scripts that can be run on a program, and the names of those that can't."""
    environment = {"GATEWAY_PROGRAM": str(program), "GATEWAY": str(program)}
    if not is_proved:
        environment["ASAN_OPTIONS"] = os.environ.get("ASAN_OPTIONS", CHECKS)
    parts, left_out = [], []
    for line in (ROOT / "checks/scripts").read_text().splitlines():
        if not line or line.startswith("#"):
            continue
        name, beside, where, *words = line.split()
        kind, _, file = where.partition(":")
        if kind == "any" or kind == "proved" and is_proved and (not file or (ROOT / file).exists()):
            parts.append(Part(name, [f"checks/{name}", *([] if is_proved else words)], ROOT, environment, beside))
        elif kind == "proved":
            left_out.append(name)
    return parts, left_out


def tests():
    """The tests of the crates, without proof."""
    environment = {"RT_SECONDS": str(TEST_LIMIT), "PATH": path_without_hints()}
    return [Part(it, ["rt", "try", "--test", "--steps", "1"], ROOT / "crates" / it, environment) for it in CRATES]


class Tally:
    def __init__(self):
        self.passed, self.failed = 0, 0

    def take(self, part, passed, seconds, lines):
        """Tells what came of one: its last line that counts, or its last one, or the end of what it wrote where it failed."""
        self.passed += passed
        self.failed += not passed
        written = [it for it in reversed(lines) if it.strip()] or [""]
        last = next((it for it in written if " passed" in it), written[0])
        last = last.removeprefix(f"{part.name}: ").removeprefix("test result: ok. ")
        tell(f"{part.name}: {last if passed else 'FAILED'} ({seconds:.0f} s)")
        if not passed:
            print("\n".join(f"    {it}" for it in lines[-SHOWN:]), flush=True)


def run_all(tally):
    """Runs all: the crates' tests while the program is built, what may stand beside others, and what has to be alone, with what is
    quiet beside it."""
    lanes = max(2, len(os.sched_getaffinity(0)))
    with ThreadPoolExecutor(lanes) as pool:
        is_proved = is_fresh(PROVED)
        running = [pool.submit(it.run) for it in tests()]
        status = 0 if is_proved else run_builder(build_unproved.build)
        if status:
            for it in running:
                it.cancel()
            return status, is_proved
        parts, left_out = scripts(PROVED if is_proved else UNPROVED, is_proved)
        running += [pool.submit(it.run) for it in parts if it.place == "beside"]
        for it in as_completed(running):
            tally.take(*it.result())
        quiet = [pool.submit(it.run) for it in parts if it.place == "quiet"]
        for it in parts:
            if it.place == "alone":
                tally.take(*it.run())
        for it in quiet:
            tally.take(*it.result())
    if left_out:
        tell(f"not run without proof: {' '.join(left_out)}")
    return 0, is_proved


def main():
    if len(sys.argv) > 1:
        print(__doc__, file=sys.stderr)
        return 2
    try:
        LOGS.mkdir(parents=True, exist_ok=True)
    except OSError as why:
        tell(f"the tests can't write in {ROOT}: {why.strerror}: {why.filename}")
        return NO_PROGRAM
    tally = Tally()
    status, is_proved = run_all(tally)
    if status:
        return status
    print(f"{tally.passed} passed, {tally.failed} failed")
    if not is_proved:
        print("Nothing is proved by this: rt ci proves, and ./gateway --prove builds the program so.")
    return 1 if tally.failed else 0


if __name__ == "__main__":
    sys.exit(main())
