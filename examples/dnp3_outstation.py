"""A DNP3 outstation (IEEE Std 1815-2012): its points, their events, and what a master is answered. It knows no socket.

simulate.py plays many of them, outstation.py one. Whoever owns one gives it what obeys commands, and changes its points; its
`Server` (dnp3_server.py) gives it what a master sends, and ten times a second the time.
"""
import struct
import time
from collections import deque
from datetime import datetime, timezone
from typing import NamedTuple

from protocols import (CON, FIN, FIR, LONGEST, ONLINE, STATUSES, UNS, Function, Indication, ProtocolError, count_header,
                       moment_octets, range_header, read_headers)

# How many events of a class are kept, and the seconds that a confirmation and an OPERATE may take.
ROOM, CONFIRM_LIMIT, SELECT_LIMIT = 1000, 5, 10
# How often an unsolicited response is repeated, and the seconds until another one is tried.
REPEATS, UNSOLICITED_REST = 2, 30
# The time of a clock that nobody has set yet: the year 2000 begins, in milliseconds.
UNSET_CLOCK = 946_684_800_000
# The last millisecond of the year 9999, in UTC.
LAST_MOMENT = 253_402_300_799_999
# The octets of a response in front of its objects, and of the longest header of objects.
RESPONSE_FRONT, HEADER = 4, 7
# What the operation of a group 12 object does: pulses and latches, with TRIP and CLOSE (Annex A).
OPERATIONS = {0x01: True, 0x41: True, 0x03: True, 0x02: False, 0x81: False, 0x04: False}
PULSES = (0x01, 0x41, 0x02, 0x81)
# Control status codes.
SUCCESS, TIMEOUT, NO_SELECT, FORMAT_ERROR, NOT_SUPPORTED, LOCAL = 0, 1, 2, 3, 4, 7
# The classes of events, and what indicates that some of one wait.
CLASSES = {1: Indication.CLASS_1, 2: Indication.CLASS_2, 3: Indication.CLASS_3}


def tell(text):
    print(f"{datetime.now(timezone.utc):%H:%M:%S}Z {text}", flush=True)


def counted(number, name):
    return f"{number} {name}{'' if number == 1 else 's'}"


class Kind(NamedTuple):
    """How points of a kind are reported: group and variation as a static value and as an event with time (Annex A), the class
    of the events, and the value: behind the flags, as `form` says, or among them from bit `shift` on."""

    static: tuple
    event: tuple
    event_class: int
    form: str = "<B"
    shift: int = 0


KINDS = {
    "binary": Kind((1, 2), (2, 2), 1, shift=7),
    "double": Kind((3, 2), (4, 2), 1, shift=6),
    "output": Kind((10, 2), (11, 2), 1, shift=7),
    "counter": Kind((20, 1), (22, 5), 3, "<BI"),
    "analog": Kind((30, 1), (32, 3), 2, "<Bi"),
}


class Point:
    __slots__ = ("flags", "index", "kind", "name", "value")

    def __init__(self, name, index, value=0):
        self.name, self.index, self.value, self.flags, self.kind = name, index, value, ONLINE, KINDS[name]

    def octets(self):
        if self.kind.shift:
            return bytes([self.flags | self.value << self.kind.shift])
        return struct.pack(self.kind.form, self.flags, self.value)


class Event(NamedTuple):
    number: int
    kind: Kind
    octets: bytes


class Command(NamedTuple):
    """What a request asks of an output: on or off and the milliseconds of a pulse (0: a latch), or a value."""

    group: int
    index: int
    value: int
    pulse: int = 0

    def __str__(self):
        if self.group == 41:
            return f"analog output {self.index} to {self.value}"
        return f"output {self.index} {'on' if self.value else 'off'}" + (f", a pulse of {self.pulse} ms" if self.pulse else "")


def read_command(objects):
    """The command of a request that operates one output, or nothing; and the status where it isn't supported."""
    headers = read_headers(objects)
    if len(headers) != 1 or headers[0].count != 1 or headers[0].group not in (12, 41):
        return None, FORMAT_ERROR
    header = headers[0]
    prefix = 1 if header.qualifier == 0x17 else 2
    index, body = int.from_bytes(header.objects[:prefix], "little"), header.objects[prefix:]
    if header.group == 41:
        return Command(41, index, struct.unpack_from("<h", body)[0]), SUCCESS
    operation, count, pulse = struct.unpack_from("<BBI", body)
    if operation not in OPERATIONS or count != 1:
        return Command(12, index, 0), NOT_SUPPORTED
    return Command(12, index, OPERATIONS[operation], pulse if operation in PULSES else 0), SUCCESS


class Pieces:
    """Fragments that are filled with objects: the octets of each, and the last event of each class in it."""

    def __init__(self):
        self.done, self.octets, self.reported = [], bytearray(), {}

    def fit(self, size):
        """How many objects of a size go into the fragment, or into the next one where none does."""
        count = (LONGEST - RESPONSE_FRONT - HEADER - len(self.octets)) // size
        if count < 1:
            self.close()
            count = (LONGEST - RESPONSE_FRONT - HEADER) // size
        return count

    def close(self):
        self.done.append((bytes(self.octets), self.reported))
        self.octets, self.reported = bytearray(), {}

    def add_values(self, run):
        """Adds points of a kind, whose indexes follow on."""
        while run:
            some = run[: self.fit(len(run[0].octets()))]
            self.octets += range_header(*some[0].kind.static, some[0].index, some[-1].index)
            self.octets += b"".join([point.octets() for point in some])
            run = run[len(some) :]

    def add_events(self, run):
        """Adds events of a kind."""
        while run:
            some = run[: self.fit(len(run[0].octets))]
            self.octets += count_header(*some[0].kind.event, len(some))
            self.octets += b"".join([event.octets for event in some])
            self.reported[some[0].kind.event_class] = some[-1].number
            run = run[len(some) :]

    def all(self):
        if self.octets or not self.done:
            self.close()
        return self.done


def runs(items, follows):
    """Splits a list where one doesn't follow on from the one before."""
    found = []
    for item in items:
        if found and follows(found[-1][-1], item):
            found[-1].append(item)
        else:
            found.append([item])
    return found


class Unsolicited(NamedTuple):
    """An unsolicited response that waits for its confirmation: when it was sent, and how often."""

    octets: bytes
    reported: dict
    moment: float
    count: int


class Outstation:
    """The points, the events that no master has confirmed, and what a master is answered (clause 4)."""

    def __init__(self, address, points, judge, obey, *, unsolicited=False, asks_time=False, say=tell):
        """`judge` gives the status of a command, and `obey` carries it out. `asks_time`: the clock isn't set, and the master is
        asked for the time."""
        self.address, self.points, self.judge, self.obey, self.say = address, points, judge, obey, say
        order = list(KINDS)
        points = sorted(points, key=lambda it: (order.index(it.name), it.index))
        self.runs = runs(points, lambda one, next_one: one.name == next_one.name and one.index + 1 == next_one.index)
        self.events, self.count = {number: deque() for number in CLASSES}, 0
        self.has_unsolicited, self.asks_time = unsolicited, asks_time
        self.is_local, self.is_silent, self.unsolicited_number = False, False, 0
        self.clock_offset, self.started = 0, time.monotonic()
        self.leave()
        self.restart()

    def restart(self):
        """Forgets all but the values of the points."""
        for queue in self.events.values():
            queue.clear()
        self.has_restarted, self.has_overflowed, self.is_clock_unset = True, False, self.asks_time
        self.enabled, self.is_null_due, self.rest_until = set(), self.has_unsolicited, 0
        if self.asks_time:
            self.lose_clock()
        self.forget_answer()
        self.selected = self.sent = self.deferred = None

    def lose_clock(self):
        """The clock is that of a device without a battery, which asks for the time."""
        self.is_clock_unset, self.clock_offset = True, UNSET_CLOCK - int(time.time() * 1000)

    def leave(self):
        """The master's connection has ended."""
        self.forget_answer()
        self.selected = self.sent = self.deferred = self.recorded = None
        self.last_request, self.last_answer = b"", []

    def forget_answer(self):
        """What wasn't sent yet of an answer, and what of it wasn't confirmed, isn't reported."""
        self.pieces, self.reported, self.awaited, self.awaited_since = deque(), {}, None, 0

    def clock(self):
        """Milliseconds since 1970 by the outstation's clock."""
        return int(time.time() * 1000) + self.clock_offset

    # Events.

    def change(self, point, value, flags=None):
        """A point has another value: an event, which is kept until a master confirms it."""
        point.value, point.flags = value, point.flags if flags is None else flags
        queue = self.events[point.kind.event_class]
        if len(queue) == ROOM:
            queue.popleft()
            self.has_overflowed = True
        self.count += 1
        octets = struct.pack("<H", point.index) + point.octets() + moment_octets(self.clock())
        queue.append(Event(self.count, point.kind, octets))

    def waiting(self, number):
        """Whether there are events of a class that aren't reported."""
        queue = self.events[number]
        return bool(queue) and queue[-1].number > self.reported.get(number, 0)

    def forget(self, reported):
        """Events up to these were confirmed."""
        for number, last in reported.items():
            queue = self.events[number]
            while queue and queue[0].number <= last:
                queue.popleft()
        if reported and all(len(queue) < ROOM for queue in self.events.values()):
            self.has_overflowed = False

    def indications(self):
        bits = sum(bit for number, bit in CLASSES.items() if self.waiting(number))
        states = ((self.has_restarted, Indication.RESTART), (self.is_clock_unset, Indication.NEED_TIME),
                  (self.is_local, Indication.LOCAL_CONTROL), (self.has_overflowed, Indication.OVERFLOW))
        return bits | sum(bit for holds, bit in states if holds)

    # Requests and their answers.

    def take(self, fragment):
        """The fragments that are sent for one of the master's."""
        if self.is_silent or len(fragment) < 2:
            return []
        function = fragment[1]
        if function == Function.CONFIRM:
            return self.confirm(fragment[0])
        if fragment == self.last_request and function != Function.READ:
            # The master has lost the answer: nothing is done twice.
            return self.last_answer
        self.last_request = fragment
        if function == Function.READ and self.sent:
            # It is answered once the unsolicited response is confirmed or given up.
            self.deferred = fragment
            return []
        self.forget_answer()
        self.last_answer = self.answer(fragment)
        return self.last_answer

    def answer(self, request):
        control, function, objects = request[0], request[1], request[2:]
        pieces, indications, selected = [(b"", {})], 0, self.selected
        self.selected = None
        try:
            if function == Function.READ:
                pieces = self.read(objects)
            elif function in (Function.SELECT, Function.OPERATE, Function.DIRECT_OPERATE):
                pieces = [(self.operate(function, control & 15, objects, selected), {})]
            elif function == Function.WRITE:
                self.write(objects)
            elif function == Function.RECORD_CURRENT_TIME:
                self.recorded = self.clock()
            elif self.has_unsolicited and function in (Function.ENABLE_UNSOLICITED, Function.DISABLE_UNSOLICITED):
                self.enable(function == Function.ENABLE_UNSOLICITED, objects)
            else:
                self.say(f"a request with function {function} isn't supported")
                indications = Indication.NO_FUNCTION
        except LookupError as why:
            self.say(f"a request can't be answered: {why.args[0]}")
            indications = Indication.OBJECT_UNKNOWN
        except (ProtocolError, struct.error) as why:
            self.say(f"a request can't be read: {why}")
            indications = Indication.PARAMETER_ERROR
        self.pieces, self.number, self.is_first = deque(pieces), control & 15, True
        return self.go_on(indications)

    def go_on(self, indications=0):
        """The next fragment of the answer. It asks for a confirmation where it has events, or isn't the last."""
        objects, reported = self.pieces.popleft()
        wants_confirmation = bool(reported or self.pieces)
        self.reported = {**self.reported, **reported}
        control = (FIR if self.is_first else 0) | (0 if self.pieces else FIN) | (CON if wants_confirmation else 0) | self.number
        self.awaited, self.awaited_since = self.number if wants_confirmation else None, time.monotonic()
        self.number, self.is_first = (self.number + 1) % 16, False
        return [struct.pack("<BBH", control, Function.RESPONSE, indications | self.indications()) + objects]

    def read(self, objects):
        """The fragments of a read: the events of the classes that it asks for, and where it asks for class 0 all values."""
        asked = [header.variation - 1 for header in read_headers(objects) if header.group == 60]
        if not asked:
            raise LookupError("a read of other objects than classes")
        pieces, count = Pieces(), 0
        for number in asked:
            if number == 0:
                for run in self.runs:
                    pieces.add_values(run)
            else:
                count += len(self.events[number])
                for run in runs(self.events[number], lambda one, next_one: one.kind is next_one.kind):
                    pieces.add_events(run)
        values = len(self.points) if 0 in asked else 0
        sent = [counted(number, name) for number, name in ((values, "point"), (count, "event")) if number]
        if sent:
            self.say(f"{'integrity' if 0 in asked else 'event'} poll: {' and '.join(sent)} sent")
        return pieces.all()

    def confirm(self, control):
        """A confirmation: what it confirms is forgotten, and what waits for it is sent."""
        if control & UNS:
            if not self.sent or control & 15 != self.sent.octets[0] & 15:
                return []
            reported, self.sent, self.is_null_due = self.sent.reported, None, False
        else:
            if self.awaited is None or control & 15 != self.awaited:
                return []
            reported, self.awaited = self.reported, None
        self.reported = {}
        self.forget(reported)
        if reported:
            self.say("the master confirms the events")
        return self.go_on() if self.pieces else self.answer_deferred()

    def answer_deferred(self):
        request, self.deferred = self.deferred, None
        return self.answer(request) if request else []

    def write(self, objects):
        for header in read_headers(objects):
            if (header.group, header.variation, header.first) == (80, 1, 7) and not any(header.objects):
                self.has_restarted = False
                self.say("the master clears the indication of a restart (IIN1.7)")
            elif header.group == 50 and header.count == 1 and (header.variation == 1 or self.recorded is not None):
                self.set_clock(header)
            else:
                raise LookupError(f"a write of group {header.group} variation {header.variation}")

    def set_clock(self, header):
        """The time is that of now (variation 1), or of when the master had it recorded (variation 3)."""
        then = self.recorded if header.variation == 3 else self.clock()
        written = int.from_bytes(header.objects, "little")
        if written > LAST_MOMENT:
            raise ProtocolError("a time behind the year 9999")
        step = written - then
        self.clock_offset += step
        self.is_clock_unset, self.recorded = False, None
        self.say(f"the master sets the clock: {datetime.fromtimestamp(self.clock() / 1000, timezone.utc):%Y-%m-%d %H:%M:%S}")

    def operate(self, function, number, objects, selected):
        """Does what a request that operates an output asks for; gives its echo, which has its status at the end."""
        command, status = read_command(objects)
        if command is None:
            raise ProtocolError("it doesn't operate one output")
        if status == SUCCESS and self.is_local:
            status = LOCAL
        if status == SUCCESS and function == Function.OPERATE:
            status = self.status_of(selected, number, objects)
        if status == SUCCESS:
            status = self.judge(command)
        is_select = function == Function.SELECT
        self.say(f"the master {'selects' if is_select else 'operates'} {command}: status {status}"
                 + (f" ({STATUSES.get(status, 'unknown')})" if status else ""))
        if is_select and status == SUCCESS:
            self.selected = objects, (number + 1) % 16, time.monotonic()
        elif status == SUCCESS:
            self.obey(command)
        return objects[:-1] + bytes([status])

    @staticmethod
    def status_of(selected, number, objects):
        """Whether an OPERATE follows its SELECT at once, with its objects."""
        if selected is None or selected[:2] != (objects, number):
            return NO_SELECT
        return TIMEOUT if time.monotonic() - selected[2] > SELECT_LIMIT else SUCCESS

    # Unsolicited responses.

    def enable(self, is_enabled, objects):
        numbers = {header.variation - 1 for header in read_headers(objects) if header.group == 60} & CLASSES.keys()
        self.enabled = self.enabled | numbers if is_enabled else self.enabled - numbers
        if not is_enabled:
            # What isn't confirmed is reported by a read.
            self.sent, self.reported = None, {}
        self.say(f"unsolicited responses are {'enabled' if is_enabled else 'disabled'}")

    def due(self, now):
        """The fragments that are due without a request, or since no confirmation came."""
        if self.is_silent:
            return []
        if self.awaited is not None and now - self.awaited_since >= CONFIRM_LIMIT:
            self.say("no confirmation came: the events are kept")
            self.forget_answer()
        if self.sent:
            return self.repeat(now) if now - self.sent.moment >= CONFIRM_LIMIT else []
        if not self.has_unsolicited or self.awaited is not None or now < self.rest_until:
            return []
        pieces = Pieces()
        for number in sorted(self.enabled):
            for run in runs(self.events[number], lambda one, next_one: one.kind is next_one.kind):
                pieces.add_events(run)
        objects, reported = pieces.all()[0]
        if not reported and not self.is_null_due:
            return []
        return [self.send_unsolicited(objects, reported, now)]

    def send_unsolicited(self, objects, reported, now):
        self.reported = reported
        control = FIR | FIN | CON | UNS | self.unsolicited_number
        self.unsolicited_number = (self.unsolicited_number + 1) % 16
        octets = struct.pack("<BBH", control, Function.UNSOLICITED_RESPONSE, self.indications()) + objects
        self.sent = Unsolicited(octets, reported, now, 1)
        if reported:
            self.say("an unsolicited response is sent")
        return octets

    def repeat(self, now):
        """What becomes of an unsolicited response without confirmation: a read that waits goes first."""
        if self.deferred or self.sent.count > REPEATS:
            self.say("no confirmation of an unsolicited response came: the events are kept")
            self.sent, self.reported, self.rest_until = None, {}, now + UNSOLICITED_REST
            return self.answer_deferred()
        self.sent = self.sent._replace(moment=now, count=self.sent.count + 1)
        return [self.sent.octets]
