#!/usr/bin/env -S python3 -B
"""Shows the gateway at work, on this machine alone: an outstation with a breaker that moves every five seconds, the gateway
with its status page, and a control centre that is told of each move; a while later an operator closes the breaker.

The lines of all stand in one terminal, each with its origin in front, and end with one that counts what came. Ctrl-C ends them,
or --seconds N does. The status is 0; 1 where no event came, no command was done or one of them ended by itself; 3 where there
is no program. A proved program is run where it stands; else one without proof, which is built first.
"""
import argparse
import os
import signal
import socket
import subprocess
import sys
import tempfile
import threading
import time
from contextlib import ExitStack, suppress
from pathlib import Path

import build_unproved
from building import PROVED, ROOT, UNPROVED, Ended, end_by, is_fresh, run_builder, started

# After how many seconds the operator acts, at most, and how long the outstation and the gateway may take to begin.
ACTS_AFTER, BEGIN_LIMIT = 12, 10
# Colours of terminals for the origins.
COLOURS = {"outstation": 33, "gateway": 36, "centre": 32, "operator": 35, "demo": 1}
CONTROL = ("5001", "on")


def tell(origin, text):
    """Writes a line with its origin; a terminal shows that in colour."""
    mark = f"{origin:10} |"
    if sys.stdout.isatty() and "NO_COLOR" not in os.environ:
        mark = f"\033[{COLOURS[origin]}m{mark}\033[0m"
    # In one piece, for each process is followed by a thread of its own.
    print(f"{mark} {text}\n", end="", flush=True)


def free_places(count):
    """Places on this machine that nobody listens at."""
    listeners = [socket.create_server(("127.0.0.1", 0)) for _ in range(count)]
    places = [f"127.0.0.1:{it.getsockname()[1]}" for it in listeners]
    for it in listeners:
        it.close()
    return places


def write_settings(outstation, station):
    """Writes the settings of the first example with these places; gives the name of the file."""
    text = (ROOT / "examples/first.toml").read_text()
    text = text.replace("[station]", f'[station]\nlisten = "{station}"', 1)
    # An event that waits for a poll is told within half a second.
    text = text.replace("[[outstation]]", f'[[outstation]]\nconnect = "{outstation}"\npoll_ms = 500', 1)
    folder = Path(tempfile.mkdtemp(prefix="gateway-demo-"))
    (folder / "settings.toml").write_text(text)
    return folder / "settings.toml"


class Show:
    """What runs, and what was counted of its lines."""

    def __init__(self, stack):
        self.stack, self.ended = stack, threading.Event()
        self.events, self.commands, self.failed, self.lost = 0, 0, [], False
        self.heard = {}

    def start(self, origin, words):
        """Starts a program, and tells each of its lines."""
        self.heard[origin] = []
        process = self.stack.enter_context(
            started(words, stdout=subprocess.PIPE, stderr=subprocess.STDOUT, text=True, errors="replace"))
        threading.Thread(target=self.follow, args=(origin, process), daemon=True).start()
        return process

    def follow(self, origin, process):
        for line in process.stdout:
            line = line.rstrip("\n")
            self.heard[origin].append(line)
            self.count(origin, line)
            try:
                tell(origin, line)
            except OSError:
                self.lost = True
                self.ended.set()
                return
        status = process.wait()
        if origin != "operator" and not self.ended.is_set():
            self.failed.append(f"the {origin} ended with status {status}")
            self.ended.set()

    def count(self, origin, line):
        if origin == "centre" and " spontaneous" in line:
            self.events += 1
        if origin == "operator" and line.endswith(" execute: activation termination"):
            self.commands += 1

    def wait_for(self, origin, part):
        """Waits until a line of one has this part."""
        end = time.monotonic() + BEGIN_LIMIT
        while not any(part in it for it in self.heard[origin]):
            if self.ended.wait(0.05):
                return False
            if time.monotonic() > end:
                self.failed.append(f"the {origin} didn't begin within {BEGIN_LIMIT} s")
                return False
        return True

    def faults(self):
        """What failed, in words."""
        missing = [] if self.events else ["no event was told"]
        return [*self.failed, *missing, *([] if self.commands else ["no command was done"])]


def play(show, program, seconds):
    """Starts the three, lets the operator act, and waits for the end."""
    outstation, station, status = free_places(3)
    settings = write_settings(outstation, station)
    tell("demo", f"settings: {settings}; status page: http://{status}/")
    port = outstation.rpartition(":")[2]
    show.start("outstation", [sys.executable, "-Bu", ROOT / "examples/outstation.py", port, "--first", "2"])
    if not show.wait_for("outstation", "listens"):
        return
    show.start("gateway", [program, "run", settings, "--status", status])
    if not show.wait_for("gateway", "listening"):
        return
    begun = time.monotonic()
    show.start("centre", [sys.executable, "-Bu", ROOT / "examples/centre.py", station])
    if show.ended.wait(ACTS_AFTER if seconds is None else min(ACTS_AFTER, 0.6 * seconds)):
        return
    show.start("operator", [sys.executable, "-Bu", ROOT / "examples/centre.py", station, "--operate", *CONTROL])
    if seconds is None:
        tell("demo", "Ctrl-C ends it")
    show.ended.wait(None if seconds is None else max(0, begun + seconds - time.monotonic()))


def chosen_program():
    """The proved program where it stands, or one without proof, which is built first; and a status where there is none."""
    if is_fresh(PROVED):
        return PROVED, 0
    status = run_builder(build_unproved.build)
    if not status:
        tell("demo", "this program isn't proved, and far slower; ./gateway --prove proves and builds it")
    return UNPROVED, status


def main():
    parser = argparse.ArgumentParser(prog="./demo", description=__doc__, formatter_class=argparse.RawDescriptionHelpFormatter)
    parser.add_argument("--seconds", type=int, metavar="N", help="how long it runs, once it is built")
    seconds = parser.parse_args().seconds
    if seconds is not None and not 1 <= seconds <= 86400:
        parser.error("--seconds takes 1 to 86400")
    program, status = chosen_program()
    if status:
        return status
    for number in (signal.SIGINT, signal.SIGTERM, signal.SIGHUP):
        signal.signal(number, end_by)
    with ExitStack() as stack:
        show = Show(stack)
        try:
            play(show, program, seconds)
        except Ended as ended:
            show.lost = ended.args[0] == signal.SIGHUP
        except BrokenPipeError:
            show.lost = True
        show.ended.set()
    faults = show.faults()
    with suppress(OSError):
        count = lambda number, word: f"{number} {word}{'' if number == 1 else 's'}"
        told = f"{count(show.events, 'event')} told, {count(show.commands, 'command')} done"
        print(f"demo: {told}{': ' if faults else ''}{'; '.join(faults)}", flush=True)
    if show.lost:
        # Nobody reads any more.
        os.dup2(os.open(os.devnull, os.O_WRONLY), 1)
    return 1 if faults else 0


if __name__ == "__main__":
    sys.exit(main())
