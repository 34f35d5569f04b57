"""A gateway that runs between peers over the loopback: how it is started, what it tells on standard error, what its status
shows, and how a case of `checks/serve` is played on it."""
import hashlib
import itertools
import json
import os
import re
import socket
import struct
import subprocess
import tempfile
import threading
import time
from collections.abc import Callable, Iterable
from datetime import datetime
from pathlib import Path
from typing import Any

from framing import spelled
from peers import (
    ACTIVATION, CONFIRMATION, DIRECT_OPERATE, DISABLE, HOST, INTEGRITY, INTERROGATED, NEGATIVE, NEWS, NOTE, PATIENCE,
    WITNESSED, Centre, Difference, Line, Link, Outstation, Witness, asdu, free_place, latch, narrow, response, same,
    unsolicited,
)
from program import ROOT

# How many seconds later than it has to be something may come, since the machine does other things too, and how much
# earlier, since two clocks tell of it, one of them in milliseconds.
SLACK, EARLY = 1.0, 0.01
# How many seconds the gateway may take to end, and an event to get through it.
END_LIMIT, EVENT_LIMIT = 1.5, 2.0
# The clock's ticks, the pause before an outstation is connected again, and how often a client is looked at, in seconds.
TICK, PAUSE, LOOK = 0.1, 1.0, 0.25
# Lines that are passed over, but in cases that are about them.
TRANSFERS = r"client \d \S+ data transfer (started|stopped)"
COUNTS = r"outstation \d+ \S+ \d+ (requests? unanswered|octets? skipped by the link)"
STRAYS = r"outstation \d+ \S+ a frame (from link address|of function) \d+ .+; .+"
# A busy host may stand still at any time, so this is passed over, too, but where it is made to.
STANDSTILL = r"the host stood still for \d+\.\d s"
TAKEN, FREE = "all eight places are taken", "a place is free"
OTHER_HOST = "127.0.0.2"
WAY_GIVEN = "gave way to a newer connection of its address"
GAVE_WAY = f"closed: {WAY_GIVEN}"
# Hosts for control centres, of which no two have the same.
HOSTS = map(lambda it: f"127.{200 + it // 65536}.{it // 256 % 256}.{it % 256}", itertools.count(1))
TROUBLES = ("restarted (IIN1.7)", "its event buffer overflowed (IIN2.3)", "its clock can't be set (IIN1.4 stays)")
VERSION = (ROOT / "VERSION").read_text().strip()
# The hosts for which calls to the system are bent, as syscall_faults.c has them.
CONNECTING, READING, WRITING, ACCEPTING, INTERRUPTED, SLOW, NARROW = (f"127.{it}.0" for it in range(101, 108))
# 2023-11-14 22:13:20.250 in UTC; a second, a minute and an hour; and how many seconds lie between two looks at all peers
# at most.
WALL, SECOND, MINUTE, HOUR, LOOKS = 1_700_000_000_250, 1000, 60_000, 3_600_000, 1.3
# How many connections a case makes one after another, unless the environment says so; more of them may take longer.
RECONNECTS = int(os.environ.get("RECONNECTS", 4000))
# How many seconds a case may take.
CASE_LIMIT = max(40, RECONNECTS // 50)
# After how many seconds the gateway lets go of who doesn't read, which would delay events by more than they may take if
# they had to wait for it.
DEAF_SECONDS = 4.0
DEAF_MS = int(DEAF_SECONDS * 1000)
# A peer that sends without end and reads nothing: once its room is used up its own octets may come ever more rarely, likely
# since its system drops what would acknowledge them too. So the room for what waits for it is small, and soon full.
DEAF = dict(room=2048, host=f"{NARROW}.4")


# ---- lines of standard error

# Each kind of line, by its priority, which a journal takes from its front: error, warning, information.
FORMS = {
    3: [
        r"outstation \d+ \S+ (not connected|lost( again)?): .+",
        r"no connection accepted: .+",
        r"\d+ events? of controls left out",
    ],
    4: [
        r"the address of outstation \d+, .+, has no port",
        r"outstations \d+ and \d+ are both reached at .+, and have the same link address",
        rf"{TAKEN}(, and \d+ more)?",
        STANDSTILL,
        r"[\d.]+ isn't allowed to connect(, and \d+ more)?",
        r"the recording ended at step \d+: .+",
        r"events aren't written: .+",
        r"\d+ observations? left out of the events",
        r"\d+ events? left out",
        *(rf"outstation \d+ \S+ {re.escape(it)}" for it in TROUBLES),
        COUNTS,
        STRAYS,
        r"outstation \d+ \S+ unreadable: .+",
        r"outstation \d+ \S+ doesn't answer a link status",
        r"outstation \d+ \S+ \d+ objects? passed over, of kinds that aren't taken",
        r"outstation \d+ \S+ order \d+ (failed|let go): .+",
        r"client \d \S+ (lost( again)?: .+|closed( again)?: (?!the gateway ends|gave way).+)",
        r"client \d \S+ \d+ observations? dropped, since too many waited",
        r"client \d \S+ told: .+, negative(: .+)?",
        r"client \d \S+ asks: type \d+.*: unknown type(, and \d+ more)?",
    ],
    6: [
        r"gateway \S+ started: .+",
        r"listening on \S+",
        FREE,
        "events are written again",
        r"outstation \d+ \S+ (connected|closed: the gateway ends)",
        r"outstation \d+ \S+ order \d+ (given: [0-9A-F ]+|done)",
        r"client \d \S+ (connected|data transfer (started|stopped)|closed: the gateway ends)",
        rf"client \d \S+ closed( again)?: {WAY_GIVEN}( \(\d+ times since [^)]+\))?(, and \d+ more)?",
        r"client \d \S+ (asks: .+|told: .+: (confirmed|deactivation confirmed|terminated))",
        "stopped",
    ],
}
KINDS = {priority: re.compile("|".join(kinds)) for priority, kinds in FORMS.items()}
# How an order is told to be given, and to end: the outstation, the order, how it ends, and why.
ORDER_GIVEN = r"outstation \d+ \S+ order \d+ given: .+"
ORDER_ENDED = r"outstation (\d+) \S+ order (\d+) (done|failed|let go)(?:: (.+))?"


# ---- settings, and what is said of them in both protocols


def table(head: str, keys: dict[str, object]) -> str:
    return f"{head}\n" + "".join(f"{key} = {json.dumps(value)}\n" for key, value in keys.items())


def point(outstation: int, kind: str, index: int, address: int) -> dict[str, object]:
    return dict(outstation=outstation, kind=kind, index=index, address=address)


EXAMPLE = (ROOT / "examples/first.toml").read_text()
# The points of the example; their rows at the start in answers to an interrogation.
BINARY, ANALOG, TOTAL = 4101, 4201, 4301
POINTS = [point(0, "binary", 5, BINARY), point(0, "analog", 0, ANALOG), point(0, "counter", 0, TOTAL)]
OPENING = [asdu(1, INTERROGATED, BINARY, "C0"), asdu(11, INTERROGATED, ANALOG, "00 00 C0")]
# Objects that show them as on, 10 and 42; the news of that, the rows, the news of a loss, and the rows after it.
OBJECTS = bytes.fromhex("01 02 00 05 05 81 1E 02 00 00 00 01 0A 00 14 01 00 00 00 01 2A 00 00 00")
BINARY_ON, BINARY_OFF = asdu(1, NEWS, BINARY, "01"), asdu(1, NEWS, BINARY, "00")
SHOWN = [BINARY_ON, asdu(11, NEWS, ANALOG, "0A 00 00"), asdu(15, NEWS, TOTAL, "2A 00 00 00 00")]
ROWS = [asdu(1, INTERROGATED, BINARY, "01"), asdu(11, INTERROGATED, ANALOG, "0A 00 00")]
LOST = [asdu(1, NEWS, BINARY, "41"), asdu(11, NEWS, ANALOG, "0A 00 40"), asdu(15, NEWS, TOTAL, "2A 00 00 00 80")]
LOST_ROWS = [asdu(1, INTERROGATED, BINARY, "41"), asdu(11, INTERROGATED, ANALOG, "0A 00 40")]
# A control that is selected before it is executed, one whose outstation is asked by SELECT and OPERATE, and one that
# has nothing before it.
SWITCH, SETPOINT, DOUBLE = 5001, 5002, 5003
CONTROLS = [
    dict(outstation=0, show="single", index=3, address=SWITCH, select=True),
    dict(outstation=0, show="setpoint", index=4, address=SETPOINT, mode="sbo"),
    dict(outstation=0, show="double", index=6, address=DOUBLE),
]
# The cause of a negative confirmation.
REFUSED = CONFIRMATION | NEGATIVE
# A command for a control without a selection, its words, what it asks for, and the negative answer to it.
OFF_COMMAND, OFF_WORDS = asdu(46, ACTIVATION, DOUBLE, "01"), "double command 5003 off, QU 0, execute"
OFF_REFUSED = asdu(46, REFUSED, DOUBLE, "01")
OFF_GIVEN = spelled(bytes([0xC1, DIRECT_OPERATE]) + latch(6, False))
# The request of that order behind its control octet, and why orders fail.
OFF_REQUEST = bytes([DIRECT_OPERATE]) + latch(6, False)
UNANSWERED = "no answer to DIRECT_OPERATE in time"
NOT_SUPPORTED = "the outstation answered DIRECT_OPERATE with status 4 (not supported)"
# 2023-11-14 22:13:20 in UTC, in both protocols.
EVENT_TIME, EVENT_TAG = bytes.fromhex("00 68 E5 CF 8B 01"), "20 4E 0D 16 0E 0B 17"
# Binary input 5 alone, on and off, and a read of it.
ON, OFF = bytes.fromhex("01 02 00 05 05 81"), bytes.fromhex("01 02 00 05 05 01")
READ = bytes.fromhex("66 01 05 00 01 00 05 10 00")
# The objects of an event of no point: the answer that has it brings something, so that further requests aren't delayed.
UNMAPPED = bytes.fromhex("02 01 17 01 4D 81")


def inputs(count: int) -> bytes:
    """The objects of so many events of binary input 5."""
    return bytes.fromhex("02 01 17") + bytes([count]) + bytes.fromhex("05 81") * count


def count_up(link: Link, fragments: int) -> list[bytes]:
    """Sends so many fragments with 150 events of the counter: 50 of them are more than the system keeps for a peer that
    doesn't read, and than half a megabyte of a record. Gives the news of them."""
    counts = [count.to_bytes(4, "little") for count in range(fragments * 150)]
    for number in range(fragments):
        events = [b"\0\0\1" + it + EVENT_TIME for it in counts[number * 150 :][:150]]
        link.confirmed(unsolicited(number, bytes.fromhex("16 05 28 96 00") + b"".join(events)))
        time.sleep(0.02)
    return [asdu(37, NEWS, TOTAL, spelled(it) + "00" + EVENT_TAG) for it in counts]


# ---- what is wanted


def counted(count: int, name: str) -> str:
    return f"{count} {name}" if count == 1 else f"{count} {name}s"


def start_line(file: str) -> str:
    """The first line on standard error of a gateway that is started on a file."""
    octets = Path(file).read_bytes()
    counts = [counted(octets.count(f"[[{it}]]".encode()), it) for it in ("point", "control", "outstation")]
    return f"gateway {VERSION} started: {file} (SHA-256 {hashlib.sha256(octets).hexdigest()}), {', '.join(counts)}"


def answered(line: Line) -> tuple[int, dict[str, str], str]:
    """What the status answers on a connection: the code, the fields and the body."""
    head, _, body = line.rest().decode().partition("\r\n\r\n")
    line.connection.close()
    first, *fields = head.split("\r\n")
    if not fields:
        raise Difference(f"an answer of the status: wanted one, got {head!r}")
    return int(first.split()[1]), dict(it.split(": ") for it in fields), body


def within(what: str, took: float, least: float, most: float) -> None:
    if not least - EARLY <= took <= most + SLACK:
        raise Difference(f"{what}: wanted after {least:.3f} to {most + SLACK:.3f} s, got after {took:.3f} s")


def becomes(what: str, ask: Callable[[], object], wanted: object) -> None:
    """Something is asked until it is what is wanted, or has been something else for too long; it may be noted a moment after what
    it tells of."""
    got, end = None, time.monotonic() + EVENT_LIMIT
    while got != wanted and time.monotonic() < end:
        got = ask()
    same(what, got, wanted)


def priority_of(text: str) -> int | None:
    """The priority of a line, by its kind; none where it is of no kind."""
    return next((priority for priority, kinds in KINDS.items() if kinds.fullmatch(text)), None)


# ---- a gateway and its peers


class Clock:
    """The time of day as a gateway reads it, in milliseconds since 1970: it stands still until it is set."""

    def __init__(self, now: int) -> None:
        self.file, self.shown = tempfile.NamedTemporaryFile(), set()
        self.slow(0)
        self.be_ahead(0)
        self.set(now)

    def set(self, now: int) -> None:
        self.shown.add(now)
        os.pwrite(self.file.fileno(), struct.pack("<q", now), 0)

    def slow(self, hundredths: int) -> None:
        """Threads that have no peer take so many hundredths of a second to read it."""
        os.pwrite(self.file.fileno(), struct.pack("<q", hundredths), 8)

    def be_ahead(self, seconds: int) -> None:
        """The monotonic clock, by which waits are measured, is ahead by so many seconds."""
        os.pwrite(self.file.fileno(), struct.pack("<q", 1000 * seconds), 16)


class Scene:
    """A gateway process, the peers that it has, and what it tells on standard error."""

    # The library that bends the system's calls, and whether the program checks its addresses.
    library: str | None = None
    is_checked = False
    # Where the gateway listens, after how many connections of control centres it ends, and where its status is.
    port: int
    sessions: int | None
    status: str

    def __init__(self, words: list[str]) -> None:
        self.words, self.began, self.clock = words, time.time(), None
        # In front of each line stands its priority, where a journal takes them.
        self.environment, self.in_journal = {}, True
        self.outstations, self.links, self.centres = {}, {}, []
        self.process = self.witness = None
        self.notes, self.noted, self.passed_over = [], threading.Condition(), f"{TRANSFERS}|{COUNTS}"
        self.is_made_to_stand = False
        self.file, self.list = tempfile.NamedTemporaryFile("w", suffix=".toml"), None
        SCENES.append(self)

    def bend(self, now: int | None = None) -> None:
        """The gateway that is started next has its calls to the system bent, and this time of day, if one is given."""
        self.environment["LD_PRELOAD"] = self.library
        if now:
            self.clock = Clock(now)
            self.environment["TIME_OF_DAY"] = self.clock.file.name

    def outstation(
        self, listens: bool = True, room: int | None = None, host: str = HOST, place: str | None = None, **keys: object,
    ) -> Outstation:
        """One more outstation, with these keys in the settings, which may say that it is reached at another place. Unless
        they say so it isn't polled for events."""
        outstation = Outstation(len(self.outstations), listens, room, host)
        outstation.place = place or outstation.place
        self.outstations[outstation] = dict(poll_ms=60000) | keys
        return outstation

    def settings(
        self, station: dict[str, object], points: Iterable[dict[str, object]],
        controls: Iterable[dict[str, object]] = (),
    ) -> str:
        """The name of a file with settings for the outstations that were made."""
        text = table("[station]", dict(common_address=1, listen=f"{HOST}:0") | station)
        for outstation, keys in self.outstations.items():
            text += table("[[outstation]]", dict(address=outstation.address, connect=outstation.place) | keys)
        text += "".join(table("[[point]]", it) for it in points if self.outstations)
        return self.write(text + "".join(table("[[control]]", it) for it in controls))

    def write(self, text: str) -> str:
        """The name of the file, which has this text now."""
        self.file.truncate(0)
        self.file.seek(0)
        self.file.write(text)
        self.file.flush()
        return self.file.name

    def named(self, text: str) -> list[str]:
        """The words by which the gateway is started with the names of a list."""
        self.list = tempfile.NamedTemporaryFile("w", suffix=".csv")
        self.list.write(text)
        self.list.flush()
        return ["--names", self.list.name]

    def run(self, file: str, *options: str, **more: Any) -> None:
        command = [*self.words, "run", file, *options]
        pipes = dict.fromkeys(("stdin", "stdout", "stderr"), subprocess.PIPE)
        environment = os.environ | self.environment | ({"JOURNAL_STREAM": "8:1815"} if self.in_journal else {})
        self.process = subprocess.Popen(command, text=True, env=environment, **pipes | more)

    def start(
        self, sessions: int | None = None, witness: bool = False, options: Iterable[str] = (), status: bool = False,
        controls: Iterable[dict[str, object]] = (), **station: object,
    ) -> None:
        """Starts the gateway, with a point more where it has a witness, and with an address for the status."""
        points = list(POINTS)
        if status:
            self.status = free_place()
            options = [*options, "--status", self.status]
        if witness:
            feeder = self.outstation()
            points.append(point(len(self.outstations) - 1, "analog", 9, WITNESSED) | dict(show="word"))
        self.begin(self.settings(station, points, controls), sessions, options, **station)
        if witness:
            link, centre = self.accept(feeder), self.client()
            link.send(response(0))
            centre.start()
            self.witness = Witness(link, centre)

    def begin(
        self, file: str, sessions: int | None = None, options: Iterable[str] = (), listen: str = f"{HOST}:#",
        **_: object,
    ) -> None:
        """Starts the gateway on a file, and waits until it listens. It is to end after so many connections of control
        centres, that of the witness included, or with standard input."""
        self.sessions = sessions
        self.run(file, *(["--sessions", str(sessions)] if sessions else ["--until-eof"]), *options)
        threading.Thread(target=self.hear, daemon=True).start()
        self.told(start_line(file) + ("; the status shows values of points" if "--values" in options else ""))
        self.port = int(self.told(f"listening on {listen}")[0].split(":")[-1])

    def hear(self) -> None:
        """Keeps what comes on standard error: lines, and when they say they are of."""
        for line in self.process.stderr:
            text, at = self.note_in(line.rstrip("\n"))
            with self.noted:
                if not self.passes_over(text):
                    self.notes.append((text, at))
                    self.noted.notify_all()

    def passes_over(self, text: str) -> bool:
        is_standstill = not self.is_made_to_stand and re.fullmatch(STANDSTILL, text)
        return bool(re.fullmatch(self.passed_over, text) or is_standstill)

    def note_in(self, line: str) -> tuple[str, float]:
        """A line behind its priority and its time, which are those that it has to have; and that time."""
        match = NOTE.fullmatch(line)
        if not match:
            return f"no line: {line!r}", 0
        # A name stands behind a line, two spaces apart.
        what = match[3].split("  ")[0] if self.list else match[3]
        at, priority = datetime.fromisoformat(match[2] + "+00:00").timestamp(), priority_of(what)
        if not self.is_now(at):
            return f"no line of now: {line!r}", 0
        if match[1] != (f"<{priority}>" if self.in_journal else None):
            return f"no line of priority {priority}: {line!r}", 0
        return match[3], at

    def is_now(self, at: float) -> bool:
        """Whether the gateway's time of day was this one since it started."""
        if self.clock:
            return round(at * 1000) in self.clock.shown
        return self.began - EARLY <= at <= time.time() + EARLY

    def told(self, *wanted: str) -> tuple[str, float]:
        """Waits for one of these lines, in which # stands for a number, and takes it away. Gives its text and time."""
        pattern = re.compile("|".join(re.escape(it).replace(r"\#", r"\d+") for it in wanted))

        def find() -> tuple[str, float] | None:
            return next((it for it in self.notes if pattern.fullmatch(it[0])), None)

        with self.noted:
            if not self.noted.wait_for(find, PATIENCE):
                got = [text for text, _ in self.notes]
                raise Difference(f"standard error: wanted {' or '.join(wanted)!r}, got {got}")
            note = find()
            self.notes.remove(note)
        return note

    def tells_nothing(self, seconds: float) -> None:
        """Nothing is told for so long but what was asked for."""
        time.sleep(seconds)
        with self.noted:
            same("lines on standard error", [text for text, _ in self.notes], [])

    def accept(self, outstation: Outstation, is_told: bool = True) -> Link:
        """The gateway connects to an outstation, which is told or isn't, and asks it for all."""
        link = self.links[outstation] = outstation.accept()
        if is_told:
            link.began = self.told(f"{outstation.name} connected")[1]
        link.request(0, DISABLE if self.outstations[outstation].get("unsolicited") else INTEGRITY)
        return link

    def watched(self, status: bool = False, **keys: object) -> tuple[Outstation, Link]:
        """Starts the gateway with a witness and one outstation more, and gives this one, which was asked for all."""
        outstation = self.outstation(**keys)
        self.start(sessions=1, witness=True, status=status)
        return outstation, self.accept(outstation)

    def operating(self, sessions: int = 1, status: bool = False, **keys: object) -> tuple[Outstation, Link, Centre]:
        """Starts the gateway with controls of an outstation, which has answered that it has nothing. Gives the
        outstation, its connection, and a control centre that has started."""
        outstation = self.outstation(**keys)
        self.start(sessions=sessions, status=status, controls=CONTROLS)
        link = self.accept(outstation)
        link.send(response(0))
        return outstation, link, self.started()

    def asks(self, centre: Centre, command: bytes, words: str, order: int | None = None) -> None:
        """A control centre sends a command, which is told of in these words, and as this order if it is one."""
        centre.ask(command)
        more = f": order {order}" if order else ""
        self.told(f"{centre.name} asks: {words}, originator 0, station 1{more}")

    def answers(self, centre: Centre, words: str, *answers: tuple[bytes, str]) -> None:
        """A control centre gets these answers to a command, each with how that is told."""
        for command, what in answers:
            centre.takes(command)
            self.told(f"{centre.name} told: {words}, originator 0, station 1: {what}")

    def refuses(self, centre: Centre, *reasons: str) -> None:
        """A control centre gets the negative answer to OFF_COMMAND, for each of these reasons, which are told."""
        self.answers(centre, OFF_WORDS, *((OFF_REFUSED, f"confirmed, negative: {reason}") for reason in reasons))

    def lost(self, outstation: Outstation, why: str) -> float:
        """The connection to an outstation is lost; gives when."""
        _, at = self.told(f"{outstation.name} {why}")
        self.links.pop(outstation).connection.close()
        return at

    def client(self, **more: Any) -> Centre:
        """A control centre connects, from a host of its own unless one is named, and has a place."""
        centre = Centre(self.port, **dict(host=next(HOSTS)) | more)
        self.seated(centre)
        return centre

    def started(self) -> Centre:
        """A control centre connects, and starts."""
        centre = self.client()
        centre.start()
        return centre

    def seated(self, centre: Centre) -> None:
        text, _ = self.told(f"client # {centre.address} connected")
        centre.name, centre.place = text.removesuffix(" connected"), text.split()[1]
        self.centres.append(centre)

    def closed(self, centre: Centre, *whys: str) -> float:
        """The connection of a control centre has ended for one of these reasons; gives when."""
        self.centres.remove(centre)
        return self.told(*(f"{centre.name} {why}" for why in whys))[1]

    def leave(self, centre: Centre) -> None:
        centre.leave()
        self.closed(centre, "lost: end of input")

    def asking(self, request: bytes = b"", room: int | None = None, host: str = HOST) -> Line:
        """A connection to the status from this host, on which this was sent; `room` is that of its receive buffer."""
        connection = socket.socket()
        if host != HOST:
            connection.bind((host, 0))
        if room:
            narrow(connection, room)
        connection.connect((HOST, int(self.status.split(":")[1])))
        line = Line(connection)
        line.write(request)
        return line

    def figures(self) -> dict[str, float]:
        """The figures of the status, each by its name with its labels, which is of the family above it."""
        figures, family = {}, ""
        for line in answered(self.asking(b"GET /metrics HTTP/1.1\r\n\r\n"))[2].splitlines():
            if line.startswith("# TYPE "):
                family = line.split()[2]
            elif not line.startswith("# "):
                name, value = line.rsplit(" ", 1)
                same("the family of a figure", name.split("{")[0], family)
                figures[name] = float(value)
        return figures

    def has_figures(self, labels: str, **wanted: float | None) -> None:
        """The status has these figures with these labels; they may be counted a moment after what they tell of."""
        names = {f"gateway_{name}{{{labels}}}": value for name, value in wanted.items()}
        found, end = {}, time.monotonic() + EVENT_LIMIT
        while found != names and time.monotonic() < end:
            figures = self.figures()
            found = {name: figures.get(name) for name in names}
        same("figures of the status", found, names)

    def closes(self) -> dict[str, float]:
        """How many connections of control centres ended, for each cause."""
        figures = [(name.split('"')[3], count) for name, count in self.figures().items() if "client_closes" in name]
        return {cause: sum(count for it, count in figures if it == cause) for cause, _ in figures}

    def finish(self) -> None:
        """All control centres go, or standard input ends. The gateway ends by itself, and leaves nothing behind."""
        if self.witness:
            self.witness.finish(EVENT_LIMIT)
        if self.sessions:
            for centre in list(self.centres):
                self.leave(centre)
        else:
            self.process.stdin.close()
        try:
            status = self.process.wait(END_LIMIT)
        except subprocess.TimeoutExpired:
            raise Difference(f"the end: wanted {END_LIMIT} s after the last connection or input, got none") from None
        for peer, line in [*self.links.items(), *((it, it) for it in self.centres)]:
            line.rest()
            self.told(f"{peer.name} closed: the gateway ends")
        self.told("stopped")
        written = self.process.stdout.read()
        if not re.fullmatch(r"steps [1-9]\d*\n", written):
            raise Difference(f"standard output: wanted 'steps N', got {written!r}")
        same("the status", status, 0)
        same("more lines on standard error", [text for text, _ in self.notes], [])

    def kill(self) -> None:
        if self.process:
            self.process.kill()
            self.process.wait(PATIENCE)

    def close(self) -> None:
        """Ends whatever is still there."""
        self.kill()
        for line in [*self.links.values(), *self.centres]:
            line.connection.close()
        for outstation in self.outstations:
            outstation.listener.close()
        if self.clock:
            self.clock.file.close()
        self.file.close()
        if self.list:
            self.list.close()


def take_lines(scene: Scene, form: str, count: int) -> list[tuple[Any, ...]]:
    """Waits for so many lines of this form, and takes all that there are; what stands at the places of the form, in order."""
    end = time.monotonic() + PATIENCE
    while True:
        with scene.noted:
            found = [(it, match) for it in scene.notes if (match := re.fullmatch(form, it[0]))]
            if len(found) >= count or time.monotonic() > end:
                lines = {id(it) for it, _ in found}
                scene.notes = [it for it in scene.notes if id(it) not in lines]
                break
        time.sleep(0.05)
    same(f"lines {form!r}", len(found), count)
    return [match.groups() for _, match in found]


# ---- cases

# What plays a case; its title is its docstring.
Play = Callable[[Scene], None]
# The cases, those that are run when no other one is, and what was set up for them.
CASES: list[Play] = []
ALONE: list[Play] = []
SCENES: list[Scene] = []


def title_of(play: Play) -> str:
    """The title of a case, on one line."""
    return " ".join((play.__doc__ or "").split())


def case(play: Play) -> Play:
    """A case that is run beside others."""
    CASES.append(play)
    return play


def alone(play: Play) -> Play:
    """A case that is run when no other one is."""
    ALONE.append(play)
    return play


def fault_of(play: Play, words: list[str]) -> str | None:
    """What differs in a case, if anything does."""
    scene = Scene(words)
    timer = threading.Timer(CASE_LIMIT, scene.kill)
    timer.start()
    try:
        play(scene)
        if scene.process:
            scene.finish()
    except (Difference, OSError, subprocess.TimeoutExpired) as fault:
        return f"{play.__doc__}: {fault}"
    finally:
        timer.cancel()
        scene.close()
    return None
