"""A `gateway run` with random settings between hostile and honest peers, as `checks/fuzz` has it: what it tells, what the
honest peers are served, and the memory, threads and files that it has."""
import math
import queue
import random
import re
import subprocess
import threading
import time
from collections import Counter, deque
from collections.abc import Callable, Iterator
from pathlib import Path
from typing import IO

from framing import spelled
from judges.answers import shown
from peers import (
    ACTIVATION, CONFIRMATION, ELEMENTS, NOTE, PATIENCE, TERMINATION, WITNESSED, Centre, Difference, Link, Outstation,
    Witness, asdu, confirmation, counters, free_place, general, response, same, same_octets, under, unsolicited,
)
from program import resources
from random_steps import RULES, Setup, random_control, random_outstation, random_point, random_points, table

# How many hostile outstations there are at a time.
OUTSTATIONS = 2
# How many seconds an answer may take, and within how many an event comes; and how many times as long that may be with a program
# that checks its addresses.
ANSWER_LIMIT, EVENT_LIMIT, CHECKED_TIMES = 5.0, 2.0, 4
# The setting `queue`.
QUEUE = 20_000
# The honest control centre's control, and the seconds between its commands.
OPERATED, OPERATE_EVERY = 9002, 0.2
# Where the honest outstation's total is, which is at no address of two octets; its event, which says that it rolled over.
TOTAL, TOTAL_EVENT = 70_000, bytes.fromhex("16 01 17 01 09 21 2A 00 00 00")
# How many control centres have a place at most, how many that were accepted wait for one, and how many requests to the status
# are answered at a time.
PLACES, WAITING, ANSWERED = 8, 8, 4
# The process's own threads: for who connects, the clock, the log, the lookout, standard input and the record. Its own files:
# standard input, output and error, what it listens on, two that tell what it takes, and two of a record.
THREADS, FILES = 6, 9


class Picture:
    """The last values that the honest control centre was told, and the answers to its commands."""

    def __init__(self) -> None:
        self.values, self.count, self.answers = {}, 0, queue.SimpleQueue()

    def put(self, octets: bytes) -> None:
        """It is told an observation, or answered."""
        if octets[0] == 45:
            self.answers.put(octets)
            return
        if octets[0] not in ELEMENTS:
            raise Difference(f"the honest control centre is told {spelled(octets)}, which it didn't ask for")
        place, value = shown(octets)
        self.values[place] = value
        self.count += 1


class HonestCentre(Centre):
    """A control centre to which S formats may come at any time."""

    def apdu(self) -> bytes:
        while (apdu := super().apdu())[2] == 1:
            number = int.from_bytes(apdu[4:6], "little") // 2
            if not self.acknowledged <= number <= self.sent:
                raise Difference(f"N(R) of {spelled(apdu)}: wanted {self.acknowledged} to {self.sent}")
            self.acknowledged = number
        return apdu


class Operator:
    """Operates a control of the honest outstation, again and again; each command is confirmed and terminated."""

    def __init__(self, centre: Centre, answers: queue.SimpleQueue) -> None:
        self.centre, self.answers, self.delays, self.fault = centre, answers, [], None
        self.ending, self.thread = threading.Event(), threading.Thread(target=self.work, daemon=True)
        self.thread.start()

    def work(self) -> None:
        try:
            while not self.ending.wait(OPERATE_EVERY):
                self.operate("01" if len(self.delays) % 2 else "00")
        except (Difference, OSError) as fault:
            self.fault = fault

    def operate(self, element: str) -> None:
        began = time.monotonic()
        self.centre.ask(asdu(45, ACTIVATION, OPERATED, element))
        for cause in (CONFIRMATION, TERMINATION):
            try:
                got = self.answers.get(timeout=patience(EVENT_LIMIT))
            except queue.Empty:
                raise Difference(f"a command isn't answered within {patience(EVENT_LIMIT)} s") from None
            same_octets("the answer to a command", got, asdu(45, cause, OPERATED, element))
        self.delays.append(time.monotonic() - began)

    def end(self) -> None:
        self.ending.set()
        self.thread.join(PATIENCE)
        if self.fault:
            raise self.fault


class Log:
    """What the gateway tells on standard error: whole lines, and of each order at most one end and one OPERATE."""

    ORDER = re.compile(r"outstation \d+ \S+ order (\d+) (given: .. (..)|done|failed|let go)")
    ACCEPTED = re.compile(r"client \d \S+ asks: .*: order (\d+)")

    def __init__(self, stream: IO[str]) -> None:
        self.stream, self.fault, self.left_out, self.last = stream, None, False, deque(maxlen=12)
        self.accepted, self.ended, self.operated, self.connected = set(), Counter(), Counter(), set()
        self.thread = threading.Thread(target=self.read, daemon=True)
        self.thread.start()

    def read(self) -> None:
        for line in self.stream:
            self.take(line)

    def take(self, line: str) -> None:
        self.last.append(line)
        match = NOTE.fullmatch(line.removesuffix("\n"))
        if match and match[3].isprintable():
            self.note(match[3])
        else:
            self.fault = self.fault or f"standard error: {line[:300]!r}"

    def note(self, text: str) -> None:
        self.left_out |= "left out" in text
        if match := re.fullmatch(r"outstation (\d+) \S+ connected", text):
            self.connected.add(int(match[1]))
        elif match := self.ACCEPTED.fullmatch(text):
            self.accepted.add(int(match[1]))
        elif match := self.ORDER.match(text):
            self.operated[int(match[1])] += match[3] in ("04", "05")
            self.ended[int(match[1])] += match[3] is None

    def judge(self) -> None:
        self.thread.join(PATIENCE)
        if self.fault:
            raise Difference(self.fault)
        wrong = [it for it in self.ended if self.ended[it] > 1 or self.operated[it] > 1]
        if not self.left_out:
            wrong += [it for it in self.accepted | set(self.ended) if self.ended[it] != 1 or it not in self.accepted]
        if wrong:
            raise Difference(f"orders {wrong[:5]} have no end or several, or were operated more than once")


def patience(seconds: float) -> float:
    """How long something may take with the program that is tried."""
    return seconds * CHECKED_TIMES if House.is_checked else seconds


class House:
    """A gateway with random settings between an honest and some hostile outstations, and an honest control centre."""

    # Whether the program checks its addresses as it runs, and is far slower by it.
    is_checked = False

    def __init__(self, program: str, seed: int, number: int, folder: str) -> None:
        self.program, self.number, self.rng = program, number, random.Random(f"{seed} house {number}")
        self.outstations = [Outstation(it) for it in range(1 + OUTSTATIONS)]
        self.listen, self.status = free_place(), free_place()
        self.port, self.setup = int(self.listen.split(":")[1]), self.random_setup()
        self.file, self.record = f"{folder}/house.toml", f"{folder}/run" if self.rng.random() < 0.5 else None
        self.picture, self.most = Picture(), 0
        self.process = self.log = self.witness = None

    def random_setup(self) -> Setup:
        """Settings whose first outstation is the honest one, with two points, and a control that nobody else knows of; the
        others may have common addresses of their own."""
        rng, k = self.rng, self.rng.choice([8, 12, 100])
        self.recorder = rng.choice([1, 16, 1024])
        own = [None, *(rng.choice([None, None, 1, 2, 258, 65534]) for _ in range(OUTSTATIONS))]
        commons = [it or 1 for it in own]
        texts = [table("[station]", common_address=1, k=k, w=rng.randint(1, 8), queue=QUEUE, recorder=self.recorder,
                       select_ms=rng.choice([30, 10000]), listen=self.listen, rule=rng.choice([None, *RULES]),
                       offset_minutes=rng.choice([0, 60, -300]))]
        for it, common in zip(self.outstations, own):
            keys = random_outstation(rng, it.address, common)[0].split("\n", 1)[1] if it.number else "poll_ms = 60000\n"
            keys = re.sub(r"(?m)^(address|response_ms|poll_ms = 1$).*\n", "", keys)
            texts.append(table("[[outstation]]", address=it.address, connect=it.place) + keys)
        # Under each common address each object address stands once.
        some = [1, 255, 256, 65536, 16777215, *range(4101, 4161)]
        free = {it: iter(rng.sample(some, 60)) for it in commons}
        points = [(*it, next(free[commons[it[0]]])) for it in random_points(rng, 1 + OUTSTATIONS) if it[0]]
        places = [(1 + rng.randrange(OUTSTATIONS), it) for it in ["single", "double", "setpoint"] for _ in range(2)]
        controls = [(*it, next(free[commons[it[0]]])) for it in places]
        texts += [random_point(rng, *it) for it in points] + [random_control(rng, *it) for it in controls]
        texts.append(table("[[point]]", outstation=0, kind="counter", index=9, address=TOTAL))
        texts.append(table("[[point]]", outstation=0, kind="analog", index=9, address=WITNESSED, show="word"))
        texts.append(table("[[control]]", outstation=0, show="single", index=3, address=OPERATED))
        points += [(0, "counter", 9, TOTAL), (0, "analog", 9, WITNESSED)]
        return Setup("\n".join(texts), commons, k, 1 + OUTSTATIONS, points, controls, [])

    @property
    def memory_bound(self) -> float:
        """How many kB the process may have.

        Beside 24 MB for the program and its threads: what waits for clients, in the core and two copies of the
        recorder's; each step that the recorder keeps, of which the largest has the octets of a fragment; and eight
        fragments of 16,296 packed inputs that are taken. An observation and a report have up to 96 octets. A program that
        checks its addresses has none: it keeps what it has released, and notes beside its memory.
        """
        if self.is_checked:
            return math.inf
        queue, steps, taken = 3 * QUEUE * 96, self.recorder * 4096, 8 * 2**14 * 96
        return (24 * 2**20 + queue + steps + taken) // 1024

    @property
    def most_threads(self) -> int:
        """How many threads the process may have: beside its own those of the status, and of each peer's place one that lasts,
        one of its connection, and one of the connection before, which has ended, and may still be there for the system."""
        return THREADS + ANSWERED + 3 * (1 + OUTSTATIONS + PLACES)

    @property
    def most_files(self) -> int:
        """How many files the process may have: beside its own a connection to each outstation, two handles of each connection
        at a place, one of each that waits and of each request that is answered, and one of what it listens on, for a moment.

        A connection that has ended keeps its place until both of its workers are back, so hostile control centres that connect
        at once again may come to have all places, and others wait: sooner where the machine is slow.
        """
        return FILES + 1 + OUTSTATIONS + 2 * PLACES + WAITING + ANSWERED + 1

    def start(self) -> None:
        """Starts the gateway and the honest peers, and waits until all outstations are connected."""
        Path(self.file).write_text(self.setup.text)
        words = [self.program, "run", self.file, "--until-eof", "--status", self.status]
        words += ["--record", self.record, "--record-size", "500"] if self.record else []
        pipes = dict.fromkeys(("stdin", "stdout", "stderr"), subprocess.PIPE)
        self.process = subprocess.Popen(words, text=True, errors="replace", **pipes)
        self.log = Log(self.process.stderr)
        link = self.outstations[0].accept()
        self.tell_total(link)
        self.within(lambda: len(self.log.connected) > OUTSTATIONS, "all outstations are connected")
        self.centre = HonestCentre(self.port)
        self.centre.start()
        for row in self.rows():
            self.picture.put(row)
        self.witness = Witness(link, self.centre, self.picture)
        self.operator = Operator(self.centre, self.picture.answers)
        self.others = resources(self.process.pid)[1]

    def tell_total(self, link: Link) -> None:
        """The honest outstation tells its total."""
        event = unsolicited(0, TOTAL_EVENT)
        link.send(event)
        while (fragment := link.fragment()) != confirmation(event):
            link.send(response(fragment[0] & 0x0F))

    def within(self, is_so: Callable[[], bool], what: str) -> None:
        """Waits until something is so."""
        end = time.monotonic() + patience(ANSWER_LIMIT)
        while not is_so():
            if time.monotonic() > end:
                raise Difference(f"wanted within {patience(ANSWER_LIMIT)} s: {what}")
            time.sleep(0.02)

    def asked(self, is_total: bool) -> list[tuple[int, int]]:
        """The places of the rows that an interrogation of all stations has to tell: totals, or all others, under each
        common address in the order of the settings."""
        commons = self.setup.commons
        return [(common, address) for common in self.setup.known for outstation, kind, _, address in self.setup.points
                if commons[outstation] == common and (kind == "counter") == is_total]

    def rows(self) -> Iterator[bytes]:
        """What interrogations of all stations and of their counters are answered: each row that is asked, and no other."""
        for asked, is_total in ((general, False), (counters, True)):
            self.centre.ask(under(65535, asked(ACTIVATION)))
            left, places = len(self.setup.known), []
            while left:
                octets = self.centre.asdu()
                self.centre.acknowledge()
                left -= octets[0] >= 100 and octets[2] == TERMINATION
                if octets[2] in (20, 37):
                    places.append(shown(octets)[0])
                    yield octets
                elif octets[0] < 100:
                    self.picture.put(octets)
            same("the rows of an answer", places, self.asked(is_total))

    def look(self) -> None:
        """Judges the process as it is now."""
        if self.process.poll() is not None:
            raise Difference(f"the gateway has ended with status {self.process.returncode}")
        if fault := self.witness.fault or self.operator.fault:
            raise fault
        memory, (threads, files, _) = resources(self.process.pid)
        self.most = max(self.most, memory)
        if memory > self.memory_bound:
            raise Difference(f"memory: {memory} kB, the bound is {self.memory_bound} kB")
        if threads > self.most_threads or files > self.most_files:
            raise Difference(f"{threads} threads, at most {self.most_threads}; {files} files, at most {self.most_files}")

    def judge_rows(self) -> None:
        """The honest control centre's last values are the gateway's."""
        for row in self.rows():
            place, value = shown(row)
            if place != (1, WITNESSED) and self.picture.values.get(place) != value:
                raise Difference(f"the last value at {place}: told {self.picture.values.get(place)}, shown {value}")

    def finish(self) -> None:
        """The honest peers were served, the gateway ends in order, and its record replays."""
        self.operator.end()
        self.witness.end(patience(EVENT_LIMIT))
        self.judge_rows()
        self.look()
        self.within(lambda: resources(self.process.pid)[1] == self.others, f"threads, files, children: {self.others}")
        self.process.stdin.close()
        status = self.process.wait(2 * PATIENCE)
        written = self.process.stdout.read()
        self.log.judge()
        if status or not re.fullmatch(r"steps \d+\n", written):
            raise Difference(f"the end: status {status}, {written!r}")
        if self.record:
            ran = subprocess.run([self.program, "replay", self.file], stdin=open(self.record), capture_output=True)
            if ran.stdout != Path(f"{self.record}.answers").read_bytes():
                raise Difference("the record isn't replayed with the same answers")

    def close(self) -> None:
        if self.process:
            self.process.kill()
            self.process.wait()
        for it in self.outstations:
            it.listener.close()
