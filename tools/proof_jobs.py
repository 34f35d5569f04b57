#!/usr/bin/env -S python3 -B
"""Tells how many proofs may be done at a time here: RT_JOBS for the gate, `rt ci`.

By itself the gate leaves processors idle: it reckons with some three times the memory that a proof takes. So here it is told to
use all of them, if each has the memory of the largest crate.
"""
import os
import re
from pathlib import Path

# The memory that the largest crate's proof takes, in kB.
LARGEST = 4_500_000


def proof_jobs():
    [available] = re.findall(r"(?m)^MemAvailable:\s*(\d+) kB$", Path("/proc/meminfo").read_text())
    return max(1, min(len(os.sched_getaffinity(0)), int(available) // LARGEST))


if __name__ == "__main__":
    print(proof_jobs())
