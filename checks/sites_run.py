#!/usr/bin/env -S python3 -B
"""Runs the gateway between examples/simulate.py and examples/centre.py on a site that is easily operated wrongly: two
outstations with common addresses of their own, the same object addresses and controls in both, and the link of one of them
down. A control centre that names no common address operates nothing; one that does operates once, there alone.

The environment variable GATEWAY has what is run for `./gateway`. Ends with status 1 where anything is otherwise.
"""
import os
import re
import shlex
import socket
import subprocess
import sys
import tempfile
import time
from concurrent.futures import ThreadPoolExecutor
from contextlib import ExitStack
from pathlib import Path

ROOT = Path(__file__).resolve().parent.parent
CENTRE, SIMULATE = ([sys.executable, "-B", "-u", str(ROOT / "examples" / it)] for it in ("centre.py", "simulate.py"))
COMMON = (7, 9)
# How many seconds the peers have to begin, and a control centre has to be answered.
LIMIT, PATIENCE = 15, 20
OUTSTATION = """
[[outstation]]
address = {number}
connect = "10.9.8.7:20000"   # both are behind one terminal server
common_address = {common}
response_ms = 1000
"""
ROWS = """
[[point]]
outstation = {number}
kind = "binary"
index = 5
address = 4101

[[control]]
outstation = {number}
show = "single"
index = 3
address = 9001
select = true
mode = "sbo"

[[control]]
outstation = {number}
show = "setpoint"
index = 4
address = 9002
"""


class Wrong(Exception):
    """Something isn't as it has to be."""


def free_ports(count: int) -> int:
    """The first of some ports that follow on, at which nobody listens."""
    for first in range(21000, 32000, count):
        try:
            for port in range(first, first + count):
                socket.create_server(("127.0.0.1", port)).close()
            return first
        except OSError:
            continue
    raise Wrong("there are no free ports")


def settings() -> str:
    numbers = list(enumerate(COMMON))
    tables = "".join(OUTSTATION.format(number=number, common=common) for number, common in numbers)
    return "[station]\ncommon_address = 1\n" + tables + "".join(ROWS.format(number=number) for number, _ in numbers)


class Peer:
    """A program that runs, and what it has written."""

    def __init__(self, stack: ExitStack, words: list[object]) -> None:
        self.output = stack.enter_context(tempfile.NamedTemporaryFile())
        self.process = subprocess.Popen(words, cwd=ROOT, stdin=subprocess.DEVNULL, stdout=self.output,
                                        stderr=subprocess.STDOUT)
        stack.callback(self.end)

    def written(self) -> str:
        return Path(self.output.name).read_text(errors="replace")

    def wait_for(self, *parts: str) -> None:
        end = time.monotonic() + LIMIT
        while not all(part in self.written() for part in parts):
            if time.monotonic() > end or self.process.poll() is not None:
                raise Wrong(f"{' '.join(map(str, self.process.args))} didn't tell {parts}:\n{self.written()}")
            time.sleep(0.05)

    def end(self) -> None:
        self.process.terminate()
        self.process.wait()


def started(stack: ExitStack, folder: Path) -> tuple[Peer, Peer, str]:
    """The simulator and the gateway, once the outstation whose link isn't down is connected; and where the gateway listens."""
    port, (source, here, script) = free_ports(3), (folder / it for it in ("site.toml", "here.toml", "script"))
    source.write_text(settings())
    script.write_text("0 lose 1\n")
    words = [source, "--settings-out", here, "--base-port", str(port), "--script", script, "--rate", "0"]
    simulator = Peer(stack, [*SIMULATE, *words])
    simulator.wait_for("settings for this machine", "> lose 1")
    wanted = settings().replace("[station]\n", f'[station]\nlisten = "127.0.0.1:{port}"\n')
    for number in range(len(COMMON)):
        wanted = wanted.replace("10.9.8.7:20000", f"127.0.0.1:{port + 1 + number}", 1)
    if here.read_text() != wanted:
        raise Wrong(f"the settings that are written differ in more than their places:\n{here.read_text()}")
    gateway = Peer(stack, [*shlex.split(os.environ.get("GATEWAY", "./gateway")), "run", here])
    gateway.wait_for("listening on", "outstation 0 127.0.0.1", "not connected: connection refused", "restarted (IIN1.7)")
    return simulator, gateway, f"127.0.0.1:{port}"


def ask(place: str, words: str) -> tuple[int | None, str]:
    """The status of a control centre, and what it wrote. One that doesn't end is ended: its status is nothing."""
    try:
        ran = subprocess.run([*CENTRE, place, *words.split()], capture_output=True, text=True, timeout=PATIENCE)
        return ran.returncode, ran.stdout + ran.stderr
    except subprocess.TimeoutExpired as late:
        return None, (late.stdout or b"").decode()


# What a control centre is asked for; its status, what it says, and what the outstation that answers is then asked to do.
CASES = (
    ("--operate 9001 on", 1, "the common addresses 7, 9 have answered, so nothing is sent", []),
    ("--operate 8 9001 on", 1, "common address 8 hasn't answered the interrogation, so nothing is sent", []),
    ("--set 9002 100", 1, "the common addresses 7, 9 have answered, so nothing is sent", []),
    ("--operate 9 9001 on --leave", 1, "    9     9001  single command          on  select: activation confirmation\n", []),
    ("--operate 9 9001 on --direct --leave", 1, "execute: activation confirmation, negative", []),
    ("--read 7 4101 --leave", 0, "    7     4101  single point           off  requested\n", []),
    ("--read 9 4101 --leave", 0, "    9     4101  single point           off  requested, not topical, invalid\n", []),
    ("--operate 7 9001 on --leave", 0, "    7     9001  single command          on  execute: activation termination\n",
     ["selects output 3 on: status 0", "operates output 3 on: status 0"]),
    ("--set 7 9002 -100 --direct --leave", 0, "    7     9002  set point             -100  execute: activation termination\n",
     ["operates analog output 4 to -100: status 0"]),
    ("--read 7 4101 --leave", 0, "    7     4101  single point            on  requested\n", []),
)


def play(cases: list[tuple[str, int, str, list[str]]], place: str, simulator: Peer, gateway: Peer) -> None:
    """Plays cases side by side: what they operate is what they have to, all together."""
    simulated, told = len(simulator.written()), len(gateway.written())
    with ThreadPoolExecutor(len(cases)) as pool:
        asked = list(pool.map(lambda case: ask(place, case[0]), cases))
    # The last line of what is done may come a moment later.
    time.sleep(0.2)
    for (words, status, said, _), (got, written) in zip(cases, asked):
        if got != status or said not in written:
            raise Wrong(f"centre.py {words}: wanted status {status} and {said!r}; got status {got} and\n{written}")
    wanted = [it for case in cases for it in case[3]]
    done = re.findall(r"outstation \d+: the master (selects .*|operates .*)", simulator.written()[simulated:])
    given = re.findall(r"outstation 0 \S+ order \d+ given: (.*)", gateway.written()[told:])
    if done != wanted or len(given) != len(wanted):
        names = [case[0] for case in cases]
        raise Wrong(f"centre.py {names}: wanted {wanted} to be done; {done} was, by the requests {given}")


def main() -> None:
    with ExitStack() as stack:
        folder = Path(stack.enter_context(tempfile.TemporaryDirectory()))
        simulator, gateway, place = started(stack, folder)
        still = [case for case in CASES[:-1] if not case[3]]
        for cases in (still, *([case] for case in CASES if case not in still)):
            play(cases, place, simulator, gateway)
    print(f"examples: {len(CASES)} commands on a site of two common addresses")


if __name__ == "__main__":
    try:
        main()
    except Wrong as why:
        sys.exit(f"examples: {why}")
