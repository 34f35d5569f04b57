#!/usr/bin/env -S python3 -B
"""An IEC 60870-5-104 control centre to try the gateway with: it prints what it is told, in words.

It connects, starts data transfer, interrogates all stations and then their counters, and prints a line for each
information object that comes: when it came, its common address and its address, its type, its value, the cause of
transmission, its quality where that isn't good, and its time tag where it has one. When it came is in UTC. With
--watch it shows a table instead, which renews itself.

--operate, --operate-double, --set and --read then send one command, or ask for one object, and print what is said of
that. The common address may be left out where one alone has answered the interrogation. A command is sent once: a
select and, once that is confirmed, its execute, or with --direct the execute alone. Ctrl-C ends it.
"""
import argparse
import heapq
import os
import select
import shutil
import socket
import struct
import sys
import time
from collections import deque
from datetime import datetime, timezone
from typing import NamedTuple

from protocols import (ACTIVATION, ALL_STATIONS, CONFIRMATION, COUNTERS, DOUBLE_COMMAND, INTERROGATION, NUMBERS, READ, REQUEST,
                       SELECT, SET_POINT, SINGLE_COMMAND, STARTDT, STARTDT_CON, STATES, TERMINATION, TESTFR, TESTFR_CON, TYPES,
                       Apdus, ProtocolError, i_format, read_asdu, readings, s_format, u_format, write_asdu)

# QOI 20 asks for all points, QCC 5 for all counters (7.2.6.22, 7.2.6.23).
WHOLE = {INTERROGATION: b"\x14", COUNTERS: b"\x05"}
COMMANDS = {SINGLE_COMMAND: "single command", DOUBLE_COMMAND: "double command", SET_POINT: "set point"}
NAMES = {INTERROGATION: "station interrogation", COUNTERS: "counter interrogation", READ: "read", 70: "end of initialization",
         **COMMANDS}
# Causes of transmission (7.2.3), and those of what is interrogated.
INTERROGATED = (20, 37)
CAUSES = {1: "periodic", 2: "background scan", 3: "spontaneous", 4: "initialized", 5: "requested", 6: "activation",
          7: "activation confirmation", 8: "deactivation", 9: "deactivation confirmation", 10: "activation termination",
          20: "interrogated by station interrogation", 37: "requested by counter interrogation",
          44: "unknown type identification", 45: "unknown cause of transmission", 46: "unknown common address",
          47: "unknown information object address"}
# Nothing tells how many stations answer an interrogation of all: they have once nothing more of it came for so many seconds, or
# nothing at all for so many.
SETTLED, ANSWER_LIMIT = 1, 10
# Seconds that a confirmation of a select may take: the execute isn't sent behind an older one.
SELECT_LIMIT = 10
# Seconds from a table to the next, and how many messages stand below it.
RENEWED, MESSAGES = 0.25, 5
ADDRESSES, COMMON_ADDRESSES = range(1, 1 << 24), range(1, ALL_STATIONS)


class Refused(Exception):
    """What was asked for isn't done; the text says why."""


def clock():
    return f"{datetime.now(timezone.utc):%H:%M:%S}Z"


def told(reading, why):
    """What is told of an object behind its value."""
    return ", ".join([why, *reading.doubts, *([reading.time] if reading.time else [])])


class Lines:
    """Prints a line for each thing that is told."""

    def tell(self, text):
        print(f"{clock()} {text}", flush=True)

    def tell_object(self, common, reading, why):
        self.tell(f"{common:5} {reading.address:8}  {reading.name:16}  {reading.value:>8}  {told(reading, why)}")

    def renew(self):
        pass


class Watched(NamedTuple):
    """A row of the table: when it came last and how often, in order of coming, and what was told."""

    turn: int
    count: int
    came: str
    reading: tuple
    why: str


class Table:
    """Shows the last value of each point, those that changed last where not all fit, and below it the last messages."""

    def __init__(self):
        self.rows, self.messages, self.turn, self.next = {}, deque(maxlen=MESSAGES), 0, 0

    def tell(self, text):
        self.messages.append(f"{clock()} {text}")
        self.next = min(self.next, time.monotonic() + RENEWED)

    def tell_object(self, common, reading, why):
        self.turn += 1
        row = self.rows.get((common, reading.address))
        self.rows[common, reading.address] = Watched(self.turn, row.count + 1 if row else 1, clock(), reading, why)

    def renew(self):
        if time.monotonic() < self.next:
            return
        self.next = time.monotonic() + RENEWED
        width, height = shutil.get_terminal_size()
        room = max(1, height - MESSAGES - 4)
        shown = sorted(heapq.nlargest(room, self.rows.items(), key=lambda it: it[1].turn))
        title = f"{len(self.rows)} points" + (f", of which the last {room} are shown" if room < len(self.rows) else "")
        lines = [f"{clock()}  {title}", "common  address  type                 value  times  came       what"]
        for (common, address), row in shown:
            what = f"{row.reading.name:16}  {row.reading.value:>8}  {row.count:5}  {row.came}  {told(row.reading, row.why)}"
            lines.append(f"{common:6} {address:8}  {what}")
        # The cursor goes home, each line is cleared behind its text, and so is what stands below the last one.
        print("\033[H" + "".join(f"{it[:width]}\033[K\n" for it in [*lines, "", *self.messages]) + "\033[J", end="", flush=True)


class Order(NamedTuple):
    """What is asked for on the command line: a command or a read, for an object of a station, if one is named."""

    kind: int
    common: int | None
    address: int
    element: bytes = b""
    is_direct: bool = False

    @property
    def selected(self):
        """The element of the select: its last octet has S/E."""
        return self.element[:-1] + bytes([self.element[-1] | SELECT])


class Connection:
    """A connection to a station: APDUs (IEC 60870-5-104, clause 5), with the numbers of those sent and received."""

    def __init__(self, connection):
        self.connection, self.apdus, self.sent, self.received = connection, Apdus(), 0, 0

    def send(self, octets):
        self.connection.sendall(octets)

    def send_asdu(self, asdu):
        self.send(i_format(self.sent, self.received, asdu))
        self.sent = (self.sent + 1) % NUMBERS

    def has_more(self, seconds=0):
        """Whether something comes within so many seconds."""
        return bool(select.select([self.connection], [], [], seconds)[0])

    def take(self, seconds):
        """The ASDUs that come within so many seconds; `STARTDT_CON` stands for the confirmation of that."""
        found = []
        if self.has_more(seconds):
            piece = self.connection.recv(65536)
            if not piece:
                raise EOFError
            self.apdus.octets += piece
        while apdu := self.apdus.next():
            control, asdu = apdu
            if control[0] == STARTDT_CON:
                found.append(STARTDT_CON)
            elif control[0] == TESTFR:
                self.send(u_format(TESTFR_CON))
            elif control[0] & 1 == 0:
                self.received = (self.received + 1) % NUMBERS
                # An S format acknowledges it. A busy centre would do so for up to w of them at once, or after t2.
                self.send(s_format(self.received))
                found.append(asdu)
        return found


class Centre:
    """What a control centre does on a connection, one thing behind the other: it interrogates the stations, then their
    counters, and then does what it is asked for, once."""

    def __init__(self, connection, shows, order, leaves):
        self.connection, self.shows, self.order, self.leaves = connection, shows, order, leaves
        # What is interrogated, and when something of it came last; which common addresses have confirmed an interrogation,
        # which of them still have to terminate it, and which were named by anything.
        self.is_started, self.asked, self.has_come, self.last = False, None, False, 0.0
        self.stations, self.open, self.seen = set(), set(), set()
        # The command's common address once it is settled, when its select or execute was sent, and what came of it.
        self.common, self.selected_at, self.is_executed, self.result = None, None, False, None

    def run(self):
        """Goes on until the station ends the connection or, where it was asked to leave, the order is answered."""
        self.connection.send(u_format(STARTDT))
        while not (self.leaves and self.result is not None):
            for asdu in self.connection.take(RENEWED / 2):
                self.take(asdu)
            # As long as something waits to be read, nothing is late.
            if not self.connection.has_more():
                self.go_on()
            self.shows.renew()

    def take(self, octets):
        if octets == STARTDT_CON:
            self.shows.tell("data transfer is started (STARTDT)")
            if not self.is_started:
                self.is_started = True
                self.interrogate(INTERROGATION)
            return
        try:
            asdu = read_asdu(octets)
            self.tell(asdu)
            self.judge(asdu)
        except (ProtocolError, IndexError, struct.error):
            self.shows.tell(f"an ASDU that can't be read: {octets.hex(' ')}")

    def tell(self, asdu):
        """Tells of each information object of an ASDU, or what the ASDU says of a command."""
        why = CAUSES.get(asdu.cause, f"cause {asdu.cause}") + (", negative" if asdu.is_negative else "")
        if asdu.kind in TYPES:
            for reading in readings(asdu):
                self.shows.tell_object(asdu.common, reading, why)
        elif asdu.kind in COMMANDS:
            address, element = int.from_bytes(asdu.rest[:3], "little"), asdu.rest[3:]
            phase = "select" if element[-1] & SELECT else "execute"
            value = commanded(asdu.kind, element)
            self.shows.tell(f"{asdu.common:5} {address:8}  {COMMANDS[asdu.kind]:16}  {value:>8}  {phase}: {why}")
        elif asdu.kind == READ:
            address = int.from_bytes(asdu.rest[:3], "little")
            self.shows.tell(f"{asdu.common:5} {address:8}  {'read':16}  {'':8}  {why}")
        else:
            self.shows.tell(f"{NAMES.get(asdu.kind, f'type {asdu.kind}')} of station {asdu.common}: {why}")

    def judge(self, asdu):
        """What an ASDU is to the interrogation that is under way, and to the order."""
        if asdu.common != ALL_STATIONS:
            self.seen.add(asdu.common)
        if asdu.kind == self.asked or asdu.cause in INTERROGATED:
            self.has_come, self.last = True, time.monotonic()
        if asdu.kind == self.asked and asdu.cause == CONFIRMATION and not asdu.is_negative:
            self.stations.add(asdu.common)
            self.open.add(asdu.common)
        elif asdu.kind == self.asked and asdu.cause == TERMINATION:
            self.open.discard(asdu.common)
        elif self.common == asdu.common and int.from_bytes(asdu.rest[:3], "little") == self.order.address:
            self.judge_answer(asdu)

    def judge_answer(self, asdu):
        """What an ASDU of the order's object is to the order. An answer to a command is the command, with its own cause."""
        order, element = self.order, asdu.rest[3:]
        is_refused = asdu.is_negative or asdu.cause >= 44
        if order.kind == READ and (asdu.kind == READ or asdu.kind in TYPES and asdu.cause == REQUEST):
            self.result = asdu.kind != READ
        elif asdu.kind != order.kind or self.result is not None:
            return
        elif self.is_executed and element == order.element:
            self.result = False if is_refused else True if asdu.cause == TERMINATION else None
        elif self.is_selected and element == order.selected and is_refused:
            self.result = False
        elif self.is_selected and element == order.selected and asdu.cause == CONFIRMATION:
            self.refuse_late()
            self.execute()

    def interrogate(self, kind):
        """Asks all stations for all that they have of a kind (C_IC_NA_1, C_CI_NA_1)."""
        self.asked, self.has_come, self.last = kind, False, time.monotonic()
        self.connection.send_asdu(write_asdu(kind, ACTIVATION, ALL_STATIONS, 0, WHOLE[kind]))

    def go_on(self):
        """What comes behind the answers of all stations, or since none comes."""
        rest = SETTLED if self.has_come and not self.open else ANSWER_LIMIT
        if self.asked and time.monotonic() - self.last >= rest:
            if self.asked == INTERROGATION:
                self.interrogate(COUNTERS)
            else:
                self.asked = None
                self.begin()
        if self.is_selected:
            self.refuse_late()

    def refuse_late(self):
        if time.monotonic() - self.selected_at > SELECT_LIMIT:
            raise Refused(f"the select wasn't confirmed within {SELECT_LIMIT} s, so it isn't executed")

    @property
    def is_selected(self):
        """Whether a select was sent, and neither its execute nor an answer that refuses it has followed."""
        return self.selected_at is not None and not self.is_executed and self.result is None

    def begin(self):
        """Sends what is asked for, if it is clear which station is meant."""
        if self.order is None:
            return
        named = ", ".join(map(str, sorted(self.seen)))
        if not self.stations:
            raise Refused("no station has answered the interrogation, so nothing is sent")
        if self.order.common is None and self.open:
            raise Refused(f"station {min(self.open)} hasn't ended its answer to the interrogation, so nothing is sent")
        if self.order.common is None and len(self.seen) > 1:
            raise Refused(f"the common addresses {named} have answered, so nothing is sent: "
                          f"name one before {self.order.address}")
        if self.order.common is not None and self.order.common not in self.stations:
            raise Refused(f"common address {self.order.common} hasn't answered the interrogation, so nothing is sent; "
                          f"{named} {'has' if len(self.seen) == 1 else 'have'}")
        self.common = min(self.stations) if self.order.common is None else self.order.common
        if self.order.kind == READ:
            self.connection.send_asdu(write_asdu(READ, REQUEST, self.common, self.order.address))
        elif self.order.is_direct:
            self.execute()
        else:
            self.selected_at = time.monotonic()
            self.command(self.order.selected)

    def command(self, element):
        self.connection.send_asdu(write_asdu(self.order.kind, ACTIVATION, self.common, self.order.address, element))

    def execute(self):
        """Sends the execute, behind its select or at once; nothing sends it again."""
        self.is_executed = True
        self.command(self.order.element)


def commanded(kind, element):
    """The value of a command, in words."""
    if kind == SET_POINT:
        return str(struct.unpack_from("<h", element)[0])
    return ("off", "on")[element[0] & 1] if kind == SINGLE_COMMAND else STATES[element[0] & 3]


# The command line.


def number_in(text, numbers, name):
    if not text.isdecimal() or int(text) not in numbers:
        raise Refused(f"{text} is no {name}: {numbers[0]} to {numbers[-1]}")
    return int(text)


def read_element(kind, text, qualifier):
    """The information element of a command (7.2.6.15, 7.2.6.16; SVA and QOS of a set point)."""
    if kind == SET_POINT:
        if not text.removeprefix("-").isdecimal() or not -32768 <= int(text) <= 32767:
            raise Refused(f"{text} is no value: -32768 to 32767")
        return struct.pack("<hB", int(text), 0)
    if text not in ("on", "off"):
        raise Refused(f"{text} is no state: on or off")
    is_on = text == "on"
    return bytes([qualifier << 2 | (is_on if kind == SINGLE_COMMAND else 1 + is_on)])


def read_order(kind, words, asked):
    """What the words behind an option ask for: a common address, if one is named, an address, and a state or a value."""
    if any(":" in word for word in words):
        raise Refused("HOST:PORT stands in front of the options")
    most = 2 if kind == READ else 3
    if not most - 1 <= len(words) <= most:
        raise Refused(f"{' '.join(words)} isn't [COMMON] ADDRESS{'' if kind == READ else ' and a state or a value'}")
    common = number_in(words[0], COMMON_ADDRESSES, "common address") if len(words) == most else None
    address = number_in(words[len(words) - most + 1], ADDRESSES, "object address")
    element = b"" if kind == READ else read_element(kind, words[-1], asked.qualifier)
    return Order(kind, common, address, element, asked.direct)


class Formatter(argparse.RawDescriptionHelpFormatter):
    """Shows the words behind an option as they are written."""

    def _format_args(self, action, default_metavar):
        return action.metavar if action.nargs == "+" else super()._format_args(action, default_metavar)


# The options that ask for something: the type that it is, its words, and what it is.
OPTIONS = {"operate": (SINGLE_COMMAND, "[COMMON] ADDRESS STATE", "a single command, as in 5001 on"),
           "operate_double": (DOUBLE_COMMAND, "[COMMON] ADDRESS STATE", "a double command, as in 5001 on"),
           "set": (SET_POINT, "[COMMON] ADDRESS VALUE", "a set point command with a scaled value, as in 5002 1000"),
           "read": (READ, "[COMMON] ADDRESS", "asks for one object, as in 4101")}


def arguments():
    parser = argparse.ArgumentParser(description=__doc__, formatter_class=Formatter)
    parser.add_argument("station", nargs="?", default="127.0.0.1:2404", metavar="HOST:PORT",
                        help="where the station listens; 127.0.0.1:2404 by default")
    for name, (_, form, text) in OPTIONS.items():
        parser.add_argument(f"--{name.replace('_', '-')}", nargs="+", metavar=form, help=text)
    parser.add_argument("--direct", action="store_true", help="commands are executed without a select")
    parser.add_argument("--qualifier", type=int, choices=range(4), default=0, metavar="QU",
                        help="of a single or double command: 1 short pulse, 2 long pulse, 3 persistent; 0 by default, as the "
                        "station says")
    parser.add_argument("--leave", action="store_true", help="ends once it is answered: status 0 if it was done, else 1")
    parser.add_argument("--watch", action="store_true", help="shows a table that renews itself, in a terminal")
    asked = parser.parse_args()
    asked.host, asked.port = read_place(asked.station)
    wanted = [(kind, words) for name, (kind, _, _) in OPTIONS.items() if (words := getattr(asked, name))]
    if len(wanted) > 1:
        raise Refused("one command or read at a time")
    if not wanted and (asked.direct or asked.qualifier or asked.leave):
        raise Refused("--direct, --qualifier and --leave stand beside a command or a read")
    if asked.watch and not sys.stdout.isatty():
        raise Refused("--watch wants a terminal")
    asked.order = read_order(*wanted[0], asked) if wanted else None
    return asked


def read_place(place):
    host, _, port = place.rpartition(":")
    if not host or not port.isdecimal() or int(port) > 65535:
        raise Refused(f"{place} is no HOST:PORT")
    return host.strip("[]"), int(port)


def connect(asked):
    try:
        connection = socket.create_connection((asked.host, asked.port), timeout=5)
        connection.settimeout(None)
        # An I format goes out at once behind an S format that isn't acknowledged by TCP yet.
        connection.setsockopt(socket.IPPROTO_TCP, socket.TCP_NODELAY, 1)
        return connection
    except ConnectionRefusedError:
        raise Refused(f"nobody listens on {asked.station}") from None
    except OSError as why:
        raise Refused(f"{asked.station} can't be reached: {why.strerror or why}") from None


def talk(asked):
    """Does what is asked for on a connection; gives the status."""
    shows = Table() if asked.watch else Lines()
    with connect(asked) as connection:
        shows.tell(f"connected to {asked.station}")
        centre = Centre(Connection(connection), shows, asked.order, asked.leave)
        try:
            centre.run()
        except ProtocolError as why:
            shows.tell(f"{why}, and the connection is ended")
        except (EOFError, ConnectionError):
            shows.tell("the station has ended the connection")
        return 0 if asked.order is None or centre.result else 1


def main():
    try:
        asked = arguments()
    except Refused as why:
        print(f"centre.py: {why}", file=sys.stderr)
        return 2
    try:
        return talk(asked)
    except Refused as why:
        print(f"centre.py: {why}", file=sys.stderr)
        return 1


if __name__ == "__main__":
    try:
        sys.exit(main())
    except KeyboardInterrupt:
        pass
    except BrokenPipeError:
        # Nobody reads any more.
        os.dup2(os.open(os.devnull, os.O_WRONLY), sys.stdout.fileno())
        sys.exit(1)
