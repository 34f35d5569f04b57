#!/usr/bin/env -S python3 -B
"""Plays the outstations of a settings file on this machine, so that the gateway can be tried with a site before there is one.

Each outstation listens on a port of its own, with the points and controls that the settings give it. Once its master has come
its points move: switches change with an event, measured values walk and report each step beyond a dead band, counters count. It
obeys commands, and points follow them: an output's state its control; a switch of the same index, or the outstation's only one;
a measured value its set point. What was operated or set moves by itself no more. `lan_time` outstations ask for the time,
`unsolicited` ones report by themselves once they are told to.

With --settings-out FILE it writes the settings by which the gateway is started beside it: the same text, with `listen` and
each `connect` on this machine. --script FILE says what fails, and when; on a terminal the same commands may be typed, and ?
lists them. Times are in UTC. Ctrl-C ends it.
"""
import argparse
import asyncio
import os
import re
import sys
import time
from contextlib import suppress
from functools import partial
from pathlib import Path
from typing import NamedTuple

from dnp3_outstation import KINDS, NOT_SUPPORTED, SUCCESS, tell
from dnp3_server import TICK, why_not
from protocols import FLAGS, STATES
from simulated_site import Refused, Site, read_tables, with_places

LISTEN_PORT, FIRST_PORT, LAST_PORT = 2404, 20000, 65535
VALUES = {"binary": ("off", "on"), "output": ("off", "on"), "double": STATES}
RANGES = {"counter": (0, 2**32 - 1), "analog": (-(2**31), 2**31 - 1)}
# The commands of a script and of a terminal are methods of `Site`. Each is told the number of an outstation, and these words.
COMMANDS = {"lose": "", "silent": "", "back": "", "restart": "", "overflow": "", "local": "", "remote": "", "clock": "",
            "status": "CODE", "set": "KIND INDEX VALUE", "flags": "KIND INDEX FLAG..",
            "follow": "control|setpoint INDEX KIND INDEX"}
# On a terminal a letter and the number of an outstation stand for a command, or end what it has begun.
KEYS = {"l": "lose", "s": "silent", "r": "restart", "o": "overflow", "c": "local", "t": "clock", "x": "status"}


def read_number(text, what, low, high):
    with suppress(ValueError):
        if low <= int(text) <= high:
            return int(text)
    raise Refused(f"{text} is no {what}" + (f": {low} to {high}" if high >= low else ", for there is none"))


def read_point(site, number, kind, index):
    if kind not in KINDS:
        raise Refused(f"{kind} is no kind of point: {', '.join(KINDS)}")
    point = site.plants[number].points.get((kind, read_number(index, "index", 0, 65535)))
    if point is None:
        raise Refused(f"outstation {number} has no {kind} {index}")
    return point


def read_value(point, text):
    if point.name in RANGES:
        return read_number(text, f"value of this {point.name}", *RANGES[point.name])
    if text not in VALUES[point.name]:
        raise Refused(f"{text} is no state of this {point.name}: {', '.join(VALUES[point.name])}")
    return VALUES[point.name].index(text)


def read_flags(names):
    for name in names:
        if name not in FLAGS and name != "none":
            raise Refused(f"{name} is no flag: {', '.join(FLAGS)}, or none")
    return sum(FLAGS.get(name, 0) for name in set(names))


def read_output(site, number, word, index):
    output = {"control": 12, "setpoint": 41}.get(word), read_number(index, "index", 0, 65535)
    if output not in site.plants[number].followers:
        raise Refused(f"outstation {number} has no {word} {index}")
    return output


def read_words(site, number, name, words):
    """What a command is told besides the number of its outstation."""
    if name == "status":
        return [read_number(words[0], "status", 0, 127)]
    if name == "follow":
        return [read_output(site, number, *words[:2]), read_point(site, number, *words[2:])]
    if name not in ("set", "flags"):
        return []
    point = read_point(site, number, *words[:2])
    return [point, read_value(point, words[2]) if name == "set" else read_flags(words[2:])]


def read_command(site, words):
    """The call that a command means, or `Refused`."""
    name, *rest = words
    if name not in COMMANDS:
        raise Refused(f"{name} is no command: {', '.join(COMMANDS)}")
    form = COMMANDS[name].split()
    if len(rest) != 1 + len(form) and not (name == "flags" and len(rest) > len(form)):
        raise Refused(f"it has to be: {name} OUTSTATION {COMMANDS[name]}".rstrip())
    number = read_number(rest[0], "outstation", 0, len(site.plants) - 1)
    return partial(getattr(site, name), number, *read_words(site, number, name, rest[1:]))


def words_of_key(site, letter, text):
    """The words of the command that a letter and a number stand for."""
    name, number = KEYS[letter], read_number(text, "outstation", 0, len(site.plants) - 1)
    plant, server = site.plants[number], site.servers[number]
    ends = {"lose": ("back", not server.is_open), "silent": ("back", plant.outstation.is_silent),
            "local": ("remote", plant.outstation.is_local)}
    other, is_so = ends.get(name, (name, False))
    code = [str(SUCCESS if plant.refusal else NOT_SUPPORTED)] if name == "status" else []
    return [other if is_so else name, str(number), *code]


class Line(NamedTuple):
    """A line of a script: after how many seconds, its text, and what it does."""

    seconds: float
    text: str
    act: partial


def read_script(site, path):
    """The lines of a script, in the order of their times: seconds and a command each; what follows # is passed over."""
    script = []
    for number, line in enumerate(read_text(path).splitlines(), 1):
        words = line.partition("#")[0].split()
        if not words:
            continue
        try:
            if not re.fullmatch(r"\d+(\.\d+)?", words[0]) or len(words) < 2:
                raise Refused("it has to be: SECONDS COMMAND ..")
            script.append(Line(float(words[0]), " ".join(words[1:]), read_command(site, words[1:])))
        except Refused as why:
            raise Refused(f"{path}: line {number}: {why}") from None
    return sorted(script, key=lambda it: it.seconds)


class Terminal:
    """What is typed: a letter and a number, or a command as in a script, a line each."""

    def __init__(self, site):
        self.site, self.octets = site, b""

    def read(self):
        piece = os.read(sys.stdin.fileno(), 4096)
        if not piece:
            asyncio.get_running_loop().remove_reader(sys.stdin.fileno())
        *lines, self.octets = (self.octets + piece).split(b"\n")
        for line in lines:
            self.obey(line.decode(errors="replace").strip())

    def obey(self, text):
        if text in ("", "?"):
            if text:
                print(help_text(), flush=True)
            else:
                self.site.tell_state()
            return
        key = re.fullmatch(r"([a-z])\s*(\d+)", text)
        try:
            words = words_of_key(self.site, *key.groups()) if key and key[1] in KEYS else text.split()
            act(self.site, Line(0, " ".join(words), read_command(self.site, words)))
        except Refused as why:
            tell(str(why))


def help_text():
    lines = ["commands, behind the seconds in a script, or typed; OUTSTATION is its position in the settings, from 0:"]
    for name, form in COMMANDS.items():
        lines += [f"  {name} OUTSTATION {form}".rstrip(), f"        {getattr(Site, name).__doc__}"]
    keys = ", ".join(f"{letter} {name}" for letter, name in KEYS.items())
    return "\n".join([*lines, "on a terminal, a letter and the number of an outstation, which begin a thing or end it:",
                      f"  {keys}", "  Enter alone tells how each outstation is"])


def act(site, line):
    tell(f"> {line.text}")
    try:
        line.act()
    except OSError as why:
        tell(f"{why.strerror}: it stays as it was")


async def play(site, script, rate, ready):
    """Plays a site for ever. `ready` is called once each outstation listens."""
    for server in site.servers:
        try:
            server.open()
        except OSError as why:
            raise Refused(why_not(server.port, why)) from None
    ready()
    if sys.stdin.isatty():
        asyncio.get_running_loop().add_reader(sys.stdin.fileno(), Terminal(site).read)
    begun, turn = time.monotonic(), 0
    while True:
        now = time.monotonic()
        while script and script[0].seconds <= now - begun:
            act(site, script.pop(0))
        site.tick(now, rate)
        # Ticks that were missed aren't made up for.
        turn = max(turn + 1, int((now - begun) / TICK))
        await asyncio.sleep(max(0, begun + turn * TICK - time.monotonic()))


def read_text(path):
    try:
        return path.read_bytes().decode()
    except UnicodeDecodeError:
        raise Refused(f"{path} is no text in UTF-8") from None
    except OSError as why:
        raise Refused(f"{path} can't be read: {why.strerror}") from None


def write_settings(path, text):
    try:
        path.write_bytes(text.encode())
    except OSError as why:
        raise Refused(f"{path} can't be written: {why.strerror}") from None


def arguments():
    parser = argparse.ArgumentParser(description=__doc__, epilog=help_text(),
                                     formatter_class=argparse.RawDescriptionHelpFormatter)
    parser.add_argument("settings", type=Path, metavar="SETTINGS.toml", help="the settings of the gateway")
    parser.add_argument("--settings-out", type=Path, metavar="FILE", help="writes the settings for this machine there")
    parser.add_argument("--base-port", type=int, metavar="P", help="the gateway is to listen on port P, and outstation N "
                        f"listens on P + 1 + N; without it {LISTEN_PORT}, and {FIRST_PORT} + N")
    parser.add_argument("--script", type=Path, metavar="FILE", help="what happens when, a line each: `12.5 set 0 binary 5 on`; "
                        "the commands are below")
    parser.add_argument("--rate", type=float, default=1, metavar="N", help="how many points of each outstation move a second, "
                        "on the average; 1 by default, 0 for none")
    parser.add_argument("--verbose", action="store_true", help="tells of event polls and confirmations too")
    asked = parser.parse_args()
    if asked.base_port is not None and not 1 <= asked.base_port <= LAST_PORT:
        parser.error(f"--base-port takes 1 to {LAST_PORT}")
    if not 0 <= asked.rate <= 10000:
        parser.error("--rate takes 0 to 10000")
    return asked


def main():
    asked = arguments()
    listen_port, first = (LISTEN_PORT, FIRST_PORT) if asked.base_port is None else (asked.base_port, asked.base_port + 1)
    text = read_text(asked.settings)
    try:
        tables = read_tables(text)
        if "station" not in tables:
            raise Refused("there is no [station]")
        site = Site(tables, first, asked.verbose)
        if first + len(site.servers) - 1 > LAST_PORT:
            raise Refused(f"there are not enough ports from {first} on")
        here = None
        if asked.settings_out:
            if asked.settings_out.exists() and asked.settings_out.samefile(asked.settings):
                raise Refused("the settings for this machine would be written over it")
            here = with_places(text, tables, f"127.0.0.1:{listen_port}", [it.place for it in site.servers])
    except Refused as why:
        raise Refused(f"{asked.settings}: {why}") from None
    script = read_script(site, asked.script) if asked.script else []

    def ready():
        site.introduce()
        if asked.settings_out:
            write_settings(asked.settings_out, here)
            tell(f"settings for this machine, by which the gateway listens on 127.0.0.1:{listen_port}: {asked.settings_out}")

    asyncio.run(play(site, script, asked.rate, ready))


if __name__ == "__main__":
    with suppress(KeyboardInterrupt):
        try:
            main()
        except Refused as refused:
            sys.exit(f"simulate.py: {refused}")
