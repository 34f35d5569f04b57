"""A plant to try gateways with: outstations and a control centre, which remember what came of each event and each command.

The measured value 0 of an outstation is the number of its last event, and a set point carries the number of its command, so what
became of each can be looked up: who confirmed it, whether the control centre was told, how often a command was carried out. They
stand on the outstations and the protocols of examples/, and run in threads, each on its own host.
"""
import asyncio
import socket
import struct
import sys
import threading
import time
from collections import Counter, deque
from contextlib import suppress
from dataclasses import dataclass, field
from pathlib import Path
from typing import NamedTuple

sys.path.insert(0, str(Path(__file__).resolve().parent.parent / "examples"))
from dnp3_outstation import SUCCESS, Outstation, Point  # noqa: E402
from dnp3_server import TICK, Link, Server  # noqa: E402
from protocols import (ACTIVATION, ALL_STATIONS, COUNTERS, INTERROGATION, NUMBERS, SET_POINT, STARTDT, STARTDT_CON,  # noqa: E402
                       TERMINATION, TESTFR, TESTFR_CON, TYPES, Apdus, ProtocolError, i_format, read_asdu, readings, s_format,
                       u_format, write_asdu)

# Measured values of an outstation, beside value 0; the object addresses of its points and of its set point.
VALUES = 4
BREAKER, NUMBER, COUNTER, SET = 1001, 2000, 3001, 5001
# What is told of a value that isn't the outstation's.
DOUBTFUL = {"not topical", "invalid"}


def settings(listen, places, **station):
    """The settings of a gateway for the outstations that can be reached at these places."""
    keys = {"common_address": 65000, "listen": f'"{listen}"', "t1_ms": 3000, "t2_ms": 1000, "t3_ms": 5000, **station}
    lines = ["[station]", *(f"{key} = {value}" for key, value in keys.items())]
    for number, place in enumerate(places):
        lines += ["", "[[outstation]]", f"address = {number + 1}", f'connect = "{place}"', "poll_ms = 200",
                  "response_ms = 1000", f"common_address = {number + 1}"]
        points = [("binary", 0, BREAKER, ""), ("analog", 0, NUMBER, 'show = "word"'), ("counter", 0, COUNTER, ""),
                  *(("analog", index, NUMBER + index, "") for index in range(1, VALUES + 1))]
        for kind, index, address, more in points:
            lines += ["", "[[point]]", f"outstation = {number}", f'kind = "{kind}"', f"index = {index}", f"address = {address}",
                      *([more] if more else [])]
        lines += ["", "[[control]]", f"outstation = {number}", 'show = "setpoint"', "index = 0", f"address = {SET}"]
    return "\n".join(lines) + "\n"


class Confirmed(NamedTuple):
    """An event that was confirmed: when, and by the gateway at which address."""

    moment: float
    master: str


class Done(NamedTuple):
    moment: float
    master: str
    number: int


class Relay(Outstation):
    """An outstation that remembers its events, who confirmed them, and what it was told to do."""

    def __init__(self, number):
        own = [Point("binary", 0), *(Point("analog", index) for index in range(VALUES + 1)), Point("counter", 0)]
        super().__init__(number + 1, own, lambda _: SUCCESS, self.carry_out, say=lambda _: None)
        self.common, self.own, self.asker = number + 1, {(it.name, it.index): it for it in own}, ""
        # By their numbers: when events were made, who confirmed them, and which events of the buffer they are.
        self.made, self.confirmed, self.numbers, self.done = {}, {}, {}, []

    def happen(self):
        """Something happens: the next number, and now and then another point."""
        number = len(self.made) + 1
        self.change(self.own["analog", 0], number)
        self.made[number], self.numbers[self.count] = time.monotonic(), number
        if number % 5 == 0:
            self.change(self.own["analog", 1 + number // 5 % VALUES], number % 1000)
        if number % 20 == 0:
            self.change(self.own["binary", 0], number // 20 % 2)
            self.change(self.own["counter", 0], number)

    def carry_out(self, command):
        self.done.append(Done(time.monotonic(), self.asker, command.value))

    def forget(self, reported):
        before = {it.number for it in self.events[2]}
        super().forget(reported)
        for count in before - {it.number for it in self.events[2]}:
            if number := self.numbers.get(count):
                self.confirmed[number] = Confirmed(time.monotonic(), self.asker)

    def kept(self):
        """The numbers of the events that no master has confirmed."""
        return {self.numbers[it.number] for it in self.events[2] if it.number in self.numbers}

    def picture(self):
        """What an interrogation shows of it, where it is told all."""
        own = self.own
        shown = {BREAKER: "on" if own["binary", 0].value else "off", NUMBER: f"{own['analog', 0].value:08x}",
                 COUNTER: str(own["counter", 0].value)}
        return {(self.common, it): value for it, value in
                [*shown.items(), *((NUMBER + index, str(own["analog", index].value)) for index in range(1, VALUES + 1))]}


class Way(Link):
    """A connection of a master to a relay, which knows whose it is."""

    def take(self, taken):
        self.outstation.asker = self.peer.rpartition(":")[0]
        super().take(taken)


class Cabinet(Server):
    """Where a relay listens. Another master's connection ends the one before, or stands beside it where all may ask: then
    they have one buffer of events, as with an outstation that has one association for all masters."""

    def __init__(self, relay, address, port=20000):
        super().__init__(relay, port)
        self.address, self.all_may_ask, self.masters = address, False, set()

    def open(self):
        connection = socket.create_server((self.address, self.port), backlog=16)
        self.is_open, self.task = True, asyncio.get_running_loop().create_task(self.listen(connection))

    async def listen(self, connection):
        self.listener = await asyncio.get_running_loop().create_server(lambda: Way(self), sock=connection)

    def seat(self, link):
        if self.taken is not link:
            before, self.taken, self.has_begun = self.taken, link, True
            if before and not self.all_may_ask:
                before.end()
        return True

    def askers(self):
        """The addresses of those that are connected now."""
        return {it.peer.rpartition(":")[0] for it in self.links}


class Plant:
    """Relays on a host, one at each of its addresses, with so many events a second each."""

    def __init__(self, host, addresses, rate, port=20000):
        self.relays = [Relay(number) for number in range(len(addresses))]
        self.cabinets = [Cabinet(relay, address, port) for relay, address in zip(self.relays, addresses)]
        self.rate, self.is_over, self.loop, self.is_ready = rate, False, None, threading.Event()
        self.run = lambda: asyncio.run(self.play())
        self.thread = host.thread(self.run) if host else threading.Thread(target=self.run, daemon=True)
        if not host:
            self.thread.start()
        self.is_ready.wait(5)

    async def play(self):
        self.loop = asyncio.get_running_loop()
        for cabinet in self.cabinets:
            cabinet.open()
        self.is_ready.set()
        begun, count, turn = time.monotonic(), 0, 0
        while not self.is_over:
            now = time.monotonic()
            # A change of the rate begins anew.
            if self.rate:
                count += self.rate * TICK
            while count >= 1:
                count -= 1
                for relay in self.relays:
                    relay.happen()
            for cabinet in self.cabinets:
                cabinet.tick(now)
            turn += 1
            await asyncio.sleep(max(0, begun + turn * TICK - time.monotonic()))

    def ask(self, work):
        """What a function gives that runs between the turns of the relays."""
        async def asked():
            return work()
        return asyncio.run_coroutine_threadsafe(asked(), self.loop).result(5)

    def picture(self):
        return {key: value for relay in self.relays for key, value in relay.picture().items()}


class Told(NamedTuple):
    """What the control centre was told of a point."""

    moment: float
    value: str
    doubts: tuple
    cause: int


@dataclass
class Order:
    """A set point, by its number: when it was sent, and what was said of it."""

    number: int
    common: int
    moment: float = 0.0
    said: list = field(default_factory=list)

    @property
    def is_done(self):
        return (TERMINATION, False) in self.said


class Centre:
    """A control centre that connects again as soon as it can, starts data transfer, interrogates, and remembers what it is told.
    It tests the connection behind `t3` of silence, and ends it where no answer comes within `t1`."""

    def __init__(self, host, place, stations, t3=1.0, t1=1.5, context=None):
        address, _, port = place.rpartition(":")
        self.place, self.stations, self.t3, self.t1, self.context = (address, int(port)), stations, t3, t1, context
        self.log, self.told, self.picture, self.orders, self.to_send = [], {}, {}, {}, deque()
        self.is_over, self.connection = False, None
        self.thread = host.thread(self.run) if host else threading.Thread(target=self.run, daemon=True)
        if not host:
            self.thread.start()

    def note(self, word):
        self.log.append((time.monotonic(), word))

    def moments(self, word):
        return [moment for moment, it in self.log if it == word]

    def operate(self, number, common):
        """A command, sent once, as soon as data transfer stands."""
        self.orders[number] = Order(number, common)
        self.to_send.append(number)

    def run(self):
        while not self.is_over:
            try:
                with socket.create_connection(self.place, timeout=0.3) as plain:
                    plain.setsockopt(socket.IPPROTO_TCP, socket.TCP_NODELAY, 1)
                    with self.context.wrap_socket(plain) if self.context else plain as self.connection:
                        self.talk()
            except (OSError, EOFError, ProtocolError) as why:
                if self.connection:
                    self.note(f"ended: {why or 'end of input'}")
            self.connection = None
            time.sleep(0.05)

    def talk(self):
        self.apdus, self.sent, self.received, self.asked, self.open = Apdus(), 0, 0, None, set()
        self.is_started, self.last, self.tested = False, time.monotonic(), None
        self.connection.settimeout(0.02)
        self.note("connected")
        self.connection.sendall(u_format(STARTDT))
        while not self.is_over:
            with suppress(TimeoutError):
                piece = self.connection.recv(65536)
                if not piece:
                    raise EOFError
                self.last, self.tested = time.monotonic(), None
                self.apdus.octets += piece
            while apdu := self.apdus.next():
                self.take(*apdu)
            self.send_due()

    def send_due(self):
        now = time.monotonic()
        if self.tested is None and now - self.last > self.t3:
            self.connection.sendall(u_format(TESTFR))
            self.tested = now
        if self.tested is not None and now - self.tested > self.t1:
            raise EOFError("no answer to a test")
        while self.is_started and self.asked is None and self.to_send:
            order = self.orders[self.to_send.popleft()]
            order.moment = now
            self.send(write_asdu(SET_POINT, ACTIVATION, order.common, SET, struct.pack("<hB", order.number, 0)))

    def send(self, asdu):
        self.connection.sendall(i_format(self.sent, self.received, asdu))
        self.sent = (self.sent + 1) % NUMBERS

    def take(self, control, octets):
        if control[0] == STARTDT_CON:
            self.is_started = True
            self.note("started")
            self.interrogate(INTERROGATION, b"\x14")
        elif control[0] == TESTFR:
            self.connection.sendall(u_format(TESTFR_CON))
        elif control[0] & 1 == 0:
            self.received = (self.received + 1) % NUMBERS
            self.connection.sendall(s_format(self.received))
            self.judge(read_asdu(octets))

    def interrogate(self, kind, element):
        self.asked, self.open, self.answer = kind, set(range(1, self.stations + 1)), {}
        self.send(write_asdu(kind, ACTIVATION, ALL_STATIONS, 0, element))

    def judge(self, asdu):
        now = time.monotonic()
        if asdu.kind in TYPES:
            for it in readings(asdu):
                told = Told(now, it.value, tuple(it.doubts), asdu.cause)
                self.told.setdefault((asdu.common, it.address), []).append(told)
                if asdu.cause in (20, 37):
                    self.answer[asdu.common, it.address] = told
        elif asdu.kind == self.asked and asdu.cause == TERMINATION:
            self.open.discard(asdu.common)
            if not self.open:
                self.end_answer()
        elif asdu.kind == SET_POINT:
            number = struct.unpack_from("<h", asdu.rest, 3)[0]
            self.orders[number].said.append((asdu.cause, asdu.is_negative))

    def end_answer(self):
        """Behind the station interrogation its counters are asked for; the picture is whole behind both."""
        if self.asked == INTERROGATION:
            self.points = self.answer
            self.interrogate(COUNTERS, b"\x05")
        else:
            self.asked, self.picture = None, {**self.points, **self.answer}
            self.note("interrogated")

    def ask_again(self, seconds=5):
        """A new interrogation, on the connection that stands; gives whether it was answered."""
        before, limit = len(self.moments("interrogated")), time.monotonic() + seconds
        self.to_interrogate()
        while len(self.moments("interrogated")) == before and time.monotonic() < limit:
            time.sleep(0.02)
        return len(self.moments("interrogated")) > before

    def to_interrogate(self):
        """An own connection is begun anew, which interrogates behind its STARTDT."""
        with suppress(OSError, AttributeError):
            self.connection.shutdown(socket.SHUT_RDWR)

    def numbers(self, common):
        """How often each event's number was told spontaneously."""
        told = self.told.get((common, NUMBER), [])
        return Counter(int(it.value, 16) for it in told if it.cause == 3 and "not topical" not in it.doubts)

    def topical_since(self, moment):
        """When the last of all points was told as topical and valid for the first time behind a moment."""
        keys = [(common, address) for common in range(1, self.stations + 1)
                for address in (BREAKER, COUNTER, *range(NUMBER, NUMBER + VALUES + 1))]
        return max(next((it.moment for it in self.told.get(key, []) if it.moment > moment and not DOUBTFUL & set(it.doubts)),
                        float("inf")) for key in keys)

    def doubtful(self, moment):
        """How many objects were told as not topical or invalid behind a moment."""
        return sum(bool(DOUBTFUL & set(it.doubts)) for told in self.told.values() for it in told if it.moment > moment)


class Prober:
    """Asks every few milliseconds whether anybody serves: a connection, a test, its confirmation, and the end."""

    def __init__(self, host, place, rest=0.02):
        address, _, port = place.rpartition(":")
        self.place, self.rest, self.served, self.is_over = (address, int(port)), rest, [], False
        self.thread = host.thread(self.run)

    def run(self):
        while not self.is_over:
            with suppress(OSError), socket.create_connection(self.place, timeout=0.1) as connection:
                connection.settimeout(0.2)
                connection.sendall(u_format(TESTFR))
                if connection.recv(6) == u_format(TESTFR_CON):
                    self.served.append(time.monotonic())
            time.sleep(self.rest)

    def gap(self, since):
        """The longest time in which nobody served, from a moment on."""
        moments = [it for it in self.served if it > since - 0.2]
        return max((later - one for one, later in zip(moments, moments[1:])), default=float("inf"))
