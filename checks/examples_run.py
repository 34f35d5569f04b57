#!/usr/bin/env -S python3 -B
"""Runs each command of README.md, SETTINGS, REPLAY, OPERATE and COMMISSIONING of docs/, and compares what it writes with the document.

A command is a line `$ COMMAND` that is indented by four spaces. What it writes, on both streams, stands below it, up to
an empty line or the next command. What varies from run to run is masked on both sides: times, the ports that the system
gives to who connects, digests, counts of steps. Lines that begin with a time may come in another order, since threads
write them. A last line `..` stands for whatever else is written: such a command goes on beside those below it, to the
next heading. Commands run in a folder of their own, which has links to all that is here. The environment variable
GATEWAY has what is run for `./gateway`, and for `./gateway --unproved`, by an absolute path. The line by which `./gateway` says
that its program isn't proved is passed over, and so is one that says that the host stood still. Ends with status 1 where
anything differs.
"""
import difflib
import errno
import os
import re
import signal
import socket
import subprocess
import sys
import tempfile
import time
from contextlib import suppress
from pathlib import Path

ROOT = Path(__file__).resolve().parent.parent
DOCUMENTS = ("README.md", "docs/SETTINGS.md", "docs/REPLAY.md", "docs/OPERATE.md", "docs/COMMISSIONING.md")
# Dates and times, ports that the system gives, digests, which a document may cut short by `..`, counts of steps.
VARIES = re.compile(r"\d{4}-\d\d-\d\d|\d\d:\d\d:\d\d(\.\d{3})?|(?<=127\.0\.0\.1:)[3-6]\d{4}"
                    r"|(?<=SHA-256 )[0-9a-f]+(\.\.)?|(?<=^steps )\d+")
# How many seconds a command has until it ends, or has written what stands in the document; and the pause behind the
# first line of one that goes on.
LIMIT, PAUSE = 15, 1
PORTS = (2404, 8080, 20000, 20001)
PASSED_OVER = re.compile(r"gateway: this program isn't proved|\S+Z the host stood still for ")


class Command:
    """A command of a document, and what is written below it."""

    def __init__(self, place: str, words: str, wanted: list[str]) -> None:
        self.place, self.words = place, words
        self.goes_on = wanted[-1:] == [".."]
        self.wanted = [VARIES.sub("~", line) for line in (wanted[:-1] if self.goes_on else wanted)]

    def start(self, folder: str) -> None:
        named = os.environ.get("GATEWAY", "./gateway")
        words = self.words
        if named != "./gateway":
            words = re.sub(r"(?<!\S)\./gateway( --unproved)?(?!\S)", lambda _: named, words)
        self.output = tempfile.NamedTemporaryFile()
        self.process = subprocess.Popen(["bash", "-c", words], cwd=folder, stdin=subprocess.DEVNULL, stdout=self.output,
                                        stderr=subprocess.STDOUT, start_new_session=True)

    def written(self) -> str:
        return Path(self.output.name).read_text(errors="replace")

    def wait(self, count: int) -> None:
        """Waits until the command ends or, where it goes on, has written so many lines; past the limit it is ended."""
        end = time.monotonic() + LIMIT
        while self.process.poll() is None and not (self.goes_on and self.written().count("\n") >= count):
            if time.monotonic() > end:
                print(f"examples: {self.place}: ended after {LIMIT} s: $ {self.words}")
                self.end()
                return
            time.sleep(0.05)

    def end(self) -> None:
        """Ends the command and whatever it has started, unless it has ended."""
        for number in (signal.SIGTERM, signal.SIGKILL):
            if self.process.poll() is None:
                os.killpg(self.process.pid, number)
                with suppress(subprocess.TimeoutExpired):
                    self.process.wait(2)

    def differs(self) -> bool:
        lines = [it for it in self.written().splitlines() if not PASSED_OVER.match(it)]
        got = [VARIES.sub("~", line) for line in (lines[: len(self.wanted)] if self.goes_on else lines)]
        has_times = any(re.match("~", line) for line in self.wanted)
        if got == self.wanted or has_times and sorted(got) == sorted(self.wanted):
            return False
        print(f"examples: {self.place}: $ {self.words}")
        print("\n".join(difflib.unified_diff(self.wanted, got, "the document", "the command", lineterm="")))
        return True


def sections_of(document: str) -> list[list[Command]]:
    """The commands of a document, a list for each heading."""
    sections, wanted = [[]], None
    for number, line in enumerate((ROOT / document).read_text().splitlines(), 1):
        if line.startswith("    $ "):
            wanted = []
            sections[-1].append((f"{document}:{number}", line[6:], wanted))
        elif line.startswith("    ") and wanted is not None:
            wanted.append(line[4:])
        else:
            wanted = None
            if line.startswith("#"):
                sections.append([])
    return [[Command(*it) for it in section] for section in sections]


def run(commands: list[Command], folder: str) -> int:
    """Runs commands in their order; gives how many differ."""
    started = []
    try:
        for command in commands:
            command.start(folder)
            started.append(command)
            command.wait(1)
            if command.goes_on and command.process.poll() is None:
                time.sleep(PAUSE)
        for command in commands:
            command.wait(len(command.wanted))
        return sum(command.differs() for command in commands)
    finally:
        for command in reversed(started):
            command.end()


def main() -> None:
    for port in PORTS:
        try:
            socket.create_server(("127.0.0.1", port)).close()
        except OSError as why:
            is_taken = why.errno == errno.EADDRINUSE
            sys.exit(f"examples: the documents' commands need 127.0.0.1:{port}: "
                     + ("it is in use by another program" if is_taken else why.strerror))
    different = 0
    for document in DOCUMENTS:
        sections = sections_of(document)
        with tempfile.TemporaryDirectory() as folder:
            for entry in ROOT.iterdir():
                (Path(folder) / entry.name).symlink_to(entry)
            different += sum(run(it, folder) for it in sections)
        print(f"examples: {sum(map(len, sections))} commands of {document} are run")
    sys.exit(1 if different else 0)


if __name__ == "__main__":
    # So that what was started is ended also where this is.
    signal.signal(signal.SIGTERM, lambda *_: sys.exit(1))
    main()
