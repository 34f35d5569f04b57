#!/usr/bin/env -S python3 -B
"""Builds the program without any proof, into out/unproved/gateway, in one to three minutes.

The toolchain's `rt try` builds and runs a program without proof, and keeps no file of it. So the program is given a named pipe
as its settings: opening that for writing returns once the program is built and reads; it waits there until it is copied, then
it is given the settings of the first example, lists them, and ends. Such a program checks indices, arithmetic and addresses as
it runs, so it is far slower than the proved one.
"""
import errno
import os
import shutil
import stat
import sys
import tempfile
import time
from pathlib import Path

from building import (
    NO_PROGRAM, ROOT, UNPROVED, Line, alone, install, is_fresh, path_without_hints, run_builder, started, tell,
)

# How many seconds it takes on an idle processor, where it isn't known of an earlier build.
USUAL = 85
# Which part of it goes by before compiling begins.
READING = 0.6
LOG = UNPROVED.parent / "log"
TOOK = UNPROVED.parent / "seconds"


def usual_seconds():
    try:
        return int(TOOK.read_text())
    except (OSError, ValueError):
        return USUAL


def can_run(folder):
    """Whether what is written there may be run."""
    trial = Path(folder) / "trial"
    trial.write_text("#!/bin/sh\n")
    trial.chmod(0o700)
    return os.access(trial, os.X_OK)


def opened(pipe):
    """The pipe for writing, once somebody reads it."""
    try:
        return os.open(pipe, os.O_WRONLY | os.O_NONBLOCK)
    except OSError as why:
        if why.errno == errno.ENXIO:
            return None
        raise


def program_in(room):
    """The one program that stands in the folder of the toolchain's temporary files."""
    for at, _, files in os.walk(room):
        for name in files:
            path = Path(at) / name
            if name != "trial" and path.stat().st_mode & stat.S_IXUSR:
                return path
    raise FileNotFoundError(errno.ENOENT, "no program was made", room)


def is_compiling(room):
    return any(name.endswith(".bc") for _, _, files in os.walk(room) for name in files)


def wait_for_program(process, room, pipe):
    """Shows how far it is; gives the pipe for writing once the program reads it, or nothing where the build ends before."""
    line, begun, about, does = Line(), time.monotonic(), usual_seconds(), "reading the sources"
    try:
        while process.poll() is None:
            writer = opened(pipe)
            if writer is not None:
                return writer
            passed = time.monotonic() - begun
            if does != "compiling" and is_compiling(room):
                about, does = round(passed / READING), "compiling"
            line.show(f"building without proof, about {about} s: {does}", f", {passed:.0f} s")
            time.sleep(0.25)
        return None
    finally:
        line.clear()


def build_in(room, begun):
    """Builds in a folder of its own, and puts the program where it is looked for; gives the status."""
    if not can_run(room):
        tell(f"nothing may be run in {room}, so no program can be built there")
        return NO_PROGRAM
    pipe = f"{room}/settings"
    os.mkfifo(pipe)
    environment = dict(os.environ, TMPDIR=room, PATH=path_without_hints())
    with open(LOG, "w") as log:
        words = ["rt", "try", "--steps", "1", "--", "check", pipe]
        with started(words, cwd=ROOT / "crates/gw_program", env=environment, stdout=log, stderr=log) as process:
            writer = wait_for_program(process, room, pipe)
            if writer is not None:
                shutil.copy(program_in(room), f"{room}/kept")
                os.write(writer, (ROOT / "examples/first.toml").read_bytes())
                os.close(writer)
                if process.wait() == 0:
                    install(f"{room}/kept", UNPROVED, begun)
                    TOOK.write_text(f"{time.time() - begun:.0f}\n")
                    return 0
    sys.stderr.write(LOG.read_text(errors="replace"))
    tell(f"the program can't be built; see {LOG}")
    return NO_PROGRAM


def build():
    folder = UNPROVED.parent
    with alone(folder, "builds the program"):
        if is_fresh(UNPROVED):
            return 0
        # What a call left that was cut off.
        for old in folder.glob("room.*"):
            shutil.rmtree(old, ignore_errors=True)
        begun = time.time()
        with tempfile.TemporaryDirectory(prefix="room.", dir=folder, ignore_cleanup_errors=True) as room:
            return build_in(room, begun)


if __name__ == "__main__":
    sys.exit(run_builder(build))
