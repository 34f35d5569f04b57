"""Cases of `checks/serve`: when outstations are asked: they are held back while control centres read slowly, and let rest
while they have nothing to tell but say that they do."""
import queue
import threading
import time
from collections.abc import Callable, Iterable, Iterator
from concurrent.futures import ThreadPoolExecutor
from contextlib import suppress
from statistics import median

from framing import frame, s_format, spelled
from harness import (
    ANALOG, BINARY, BINARY_ON, CONTROLS, DOUBLE, EVENT_TAG, OFF_COMMAND, SETPOINT, SLACK, TICK, TOTAL, TROUBLES,
    UNMAPPED, Scene, case, count_up, inputs, point, within,
)
from peers import (
    ACTIVATION, CONFIRMATION, DIRECT_OPERATE, EVENTS, NEWS, OPERATE, PATIENCE, SELECT, TERMINATION, Centre, Difference,
    Ended, Line, Link, analog, asdu, confirmation, latch, response, same, unsolicited,
)

# How many events a fragment has, and how many control centres acknowledge at once.
SIZE, W = 120, 8
# How long a fragment waits for control centres at most: by default, and while an order has no outcome.
HOLD, ORDER_HOLD = 1.25, 0.25
# For how many seconds behind an APDU or an acknowledgement a control centre counts as one that reads.
READS = 2.0
# The functions of requests that operate an output.
ORDERS = (SELECT, OPERATE, DIRECT_OPERATE)
# The rests behind ten requests in a row that brought nothing, in seconds.
RESTS = [0.02, 0.04, 0.08, 0.16, 0.32, 0.64, 1.0, 1.0]
DROPPED = r"|client \d \S+ \d+ observations? dropped, since too many waited"
ORDERED = r"|.* (asks|told): .*|.* order \d+ (given: .*|done)"


def addresses(number: int) -> tuple[int, int]:
    """Where the binary and the analog input of the outstation of this number are."""
    return BINARY + 1000 * number, ANALOG + 1000 * number


def points(count: int) -> list[dict[str, object]]:
    """The two points of each of so many outstations."""
    kinds = (("binary", 5), ("analog", 0))
    return [point(it, *kind, address) for it in range(count) for kind, address in zip(kinds, addresses(it))]


def event(number: int) -> bytes:
    """The objects of an event: of the analog input where its number is odd, else of the binary one."""
    if number & 1:
        return bytes.fromhex("20 01 17 01 00 01") + number.to_bytes(4, "little")
    return bytes.fromhex("02 01 17 01 05") + bytes([0x81 if number & 2 else 0x01])


def events(numbers: Iterable[int]) -> bytes:
    """The objects of events with these numbers, of two types by turns."""
    return b"".join(event(it) for it in numbers)


def news(numbers: Iterable[int], outstation: int = 0) -> list[bytes]:
    """What is told of them."""
    binary, other = addresses(outstation)
    return [asdu(11, NEWS, other, spelled(it.to_bytes(2, "little")) + "00") if it & 1
            else asdu(1, NEWS, binary, "01" if it & 2 else "00") for it in numbers]


class Task:
    """Threads that work for a peer until its connection ends; what goes wrong there is told at the end."""

    def __init__(self, line: Line, *works: Callable[[], None]) -> None:
        self.line, self.fault = line, None
        line.connection.settimeout(None)
        self.threads = [threading.Thread(target=self.watch, args=[it], daemon=True) for it in works]
        for thread in self.threads:
            thread.start()

    def watch(self, work: Callable[[], None]) -> None:
        try:
            with suppress(Ended, OSError):
                work()
        except Difference as fault:
            self.fault = fault

    def until(self, what: str, is_so: Callable[[], bool], seconds: float) -> None:
        """Waits until it is so."""
        end = time.monotonic() + seconds
        while not is_so():
            if self.fault or time.monotonic() > end:
                raise self.fault or Difference(f"{what}: wanted in {seconds} s")
            time.sleep(0.005)


class Reader(Task):
    """A control centre that acknowledges every 8th I format, or as is said, so many seconds after it came."""

    def __init__(self, centre: Centre, late: float = 0, every: int = W) -> None:
        self.centre, self.late, self.every = centre, late, every
        self.told, self.receipts, self.reads = [], queue.SimpleQueue(), threading.Event()
        self.acknowledged, self.turn = 0, threading.Lock()
        self.reads.set()
        super().__init__(centre, self.read, self.acknowledge)

    def read(self) -> None:
        self.centre.apdu = self.i_format
        while True:
            self.told.append(self.centre.asdu())
            if not self.centre.alone and self.centre.got % self.every == 0:
                self.receipts.put((time.monotonic() + self.late, self.centre.got))

    def acknowledge(self) -> None:
        while True:
            at, got = self.receipts.get()
            time.sleep(max(at - time.monotonic(), 0))
            self.reads.wait()
            with self.turn:
                self.acknowledged = got
                self.centre.write(s_format(got))

    def i_format(self) -> bytes:
        """The next APDU that is no S format."""
        while (apdu := Centre.apdu(self.centre))[2] == 1:
            pass
        return apdu

    def ask(self, octets: bytes) -> None:
        with self.turn:
            self.centre.ask(octets, got=self.acknowledged)

    def of(self, outstation: int) -> list[bytes]:
        """What it was told of an outstation."""
        ours = [it.to_bytes(3, "little") for it in addresses(outstation)]
        return [it for it in list(self.told) if it[6:9] in ours]

    def gets(self, count: int, outstation: int = 0, seconds: float = PATIENCE) -> None:
        """It is told of all events up to this one, in order."""
        self.until(f"{count} events of outstation {outstation}", lambda: len(self.of(outstation)) >= count, seconds)
        same(f"what is told of outstation {outstation}", self.of(outstation), news(range(count), outstation))


class Backlog(Task):
    """An outstation that has kept so many events. It gives 120 of them at each poll, or by itself, once the last ones are
    confirmed."""

    def __init__(self, link: Link, count: int, is_polled: bool = True) -> None:
        self.link, self.count, self.times = link, count, []
        super().__init__(link, self.give_by_polls if is_polled else self.give)

    def fragments(self, control: Callable[[int, bytes, bool], bytes]) -> Iterator[tuple[int, bytes]]:
        """The fragments, of which each has the next number."""
        for number, begin in enumerate(range(0, self.count, SIZE), 1):
            end = min(begin + SIZE, self.count)
            yield number, control(number, events(range(begin, end)), end < self.count)

    def give_by_polls(self) -> None:
        def answer(number: int, objects: bytes, is_more: bool) -> bytes:
            return response(number, objects, con=True, iin=0x02 if is_more else 0)

        self.link.send(response(0, iin=0x02))
        for number, fragment in self.fragments(answer):
            self.link.request(number, EVENTS)
            self.tell(fragment)

    def give(self) -> None:
        self.link.send(response(0))
        for _, fragment in self.fragments(lambda number, objects, _: unsolicited(number, objects)):
            self.tell(fragment)

    def tell(self, fragment: bytes) -> None:
        self.link.confirmed(fragment)
        self.times.append(time.monotonic())

    def ends(self, seconds: float) -> None:
        """All were confirmed, none later behind the one before it than it may be."""
        self.until("the end of a backlog", lambda: len(self.times) * SIZE >= self.count, seconds)
        within("the longest time for a fragment", self.longest(), 0, HOLD)

    def longest(self) -> float:
        return max(later - earlier for earlier, later in zip(self.times, self.times[1:]))


def late_centre(scene: Scene, is_polled: bool) -> tuple[Reader, Backlog]:
    """A control centre that is told 160 events a second, of which 300 may wait, and an outstation that has kept 960."""
    outstation = scene.outstation()
    scene.begin(scene.settings(dict(queue=300), points(1)))
    link, centre = scene.accept(outstation), Reader(scene.started(), late=0.05)
    return centre, Backlog(link, 8 * SIZE, is_polled)


# ---- outstations that are held back


@case
def held_back(scene: Scene) -> None:
    """an outstation that sends faster than a control centre takes its news is held back, so that none is dropped"""
    outstation = scene.outstation()
    scene.start(sessions=1, k=1, w=1, queue=400)
    link, centre = scene.accept(outstation), scene.started()
    link.send(response(0))
    with ThreadPoolExecutor() as pool:
        sending = pool.submit(count_up, link, 10)
        for count in range(10 * 150):
            if not centre.alone:
                centre.acknowledge()
                time.sleep(0.005)
            centre.takes(asdu(37, NEWS, TOTAL, spelled(count.to_bytes(4, "little")) + "00" + EVENT_TAG))
        sending.result()
    centre.acknowledge()


@case
def late_acknowledgements(scene: Scene) -> None:
    """nothing of a backlog is dropped for a control centre whose acknowledgements come late: its outstation isn't polled for as
    long"""
    centre, backlog = late_centre(scene, is_polled=True)
    backlog.ends(8)
    centre.gets(8 * SIZE)


@case
def late_confirmations(scene: Scene) -> None:
    """nor of one that the outstation sends by itself: what it sends is taken, and confirmed, for as long later"""
    centre, backlog = late_centre(scene, is_polled=False)
    backlog.ends(8)
    centre.gets(8 * SIZE)


class Ticker(Task):
    """An outstation that tells one event at a time, ten a second."""

    def __init__(self, link: Link) -> None:
        self.link, self.waits, self.ending = link, [], threading.Event()
        super().__init__(link, self.tell)

    def tell(self) -> None:
        self.link.send(response(0))
        while not self.ending.wait(TICK):
            began = time.monotonic()
            self.link.confirmed(unsolicited(len(self.waits), events([len(self.waits)])))
            self.waits.append(time.monotonic() - began)

    def end(self) -> None:
        self.ending.set()
        for thread in self.threads:
            thread.join(PATIENCE)


@case
def backlogs_at_once(scene: Scene) -> None:
    """nothing of two backlogs and of single events is dropped for two control centres, of which one is slow; the single
    events don't wait"""
    outstations = [scene.outstation() for _ in range(3)]
    scene.begin(scene.settings(dict(queue=300), points(3)))
    links = [scene.accept(it) for it in outstations]
    slow, fast = Reader(scene.started(), late=0.02), Reader(scene.started())
    ticker, backlogs = Ticker(links[2]), [Backlog(it, 6 * SIZE) for it in links[:2]]
    for backlog in backlogs:
        backlog.ends(8)
    ticker.end()
    for centre in (slow, fast):
        for outstation in (0, 1):
            centre.gets(6 * SIZE, outstation)
        centre.gets(len(ticker.waits), 2)
    if median(ticker.waits) > TICK:
        raise Difference(f"a single event: wanted in {TICK} s, got in {median(ticker.waits):.3f} s")


@case
def halting_centre(scene: Scene) -> None:
    """a control centre that reads slowly, then not at all, then again: nothing is dropped while it reads, and it holds nobody
    up while it doesn't"""
    scene.passed_over += DROPPED
    outstation = scene.outstation()
    scene.begin(scene.settings(dict(queue=300), points(1)))
    link, slow, fast = scene.accept(outstation), Reader(scene.started(), late=0.05), Reader(scene.started())
    backlog = Backlog(link, 24 * SIZE)
    backlog.until("six fragments", lambda: len(backlog.times) >= 6, 8)
    time.sleep(0.1)
    slow.reads.clear()
    halted = time.monotonic()
    fast.gets(24 * SIZE, seconds=READS + HOLD + PATIENCE)
    within("the end of the backlog", time.monotonic() - halted, 0, READS + HOLD)
    within("the longest time for a fragment", backlog.longest(), HOLD / 2, HOLD)
    slow.reads.set()
    # It gets the last 300 yet. Before that it got all up to its halt, and what was under way then.
    everything = news(range(24 * SIZE))
    slow.until("the last event", lambda: slow.told[-1:] == everything[-1:], PATIENCE)
    count = len(slow.told) - 300
    same("what the slow control centre got", slow.told, everything[:count] + everything[-300:])


@case
def fragment_beyond_the_queue(scene: Scene) -> None:
    """a fragment of more observations than a queue of one waits until none does, for a quarter of response_ms at most"""
    scene.passed_over += DROPPED
    outstation = scene.outstation(response_ms=4000)
    scene.start(k=1, w=1, queue=1)
    link, centre = scene.accept(outstation), scene.started()
    link.send(response(0))
    link.confirmed(unsolicited(0, inputs(7)))
    centre.takes(BINARY_ON)
    # While one waits no other has room.
    link.confirmed(unsolicited(1, inputs(1)))
    fragment = unsolicited(2, inputs(7))
    link.send(fragment)
    link.quiet(0.6)
    centre.acknowledge()
    began = time.monotonic()
    centre.takes(BINARY_ON)
    link.wants(confirmation(fragment))
    within("the end of the wait", time.monotonic() - began, 0, 0.5 - SLACK)
    began = time.monotonic()
    link.confirmed(unsolicited(3, inputs(7)))
    within("the longest wait", time.monotonic() - began, 1, 1.5 - SLACK)


@case
def link_while_held(scene: Scene) -> None:
    """the link's frames are answered at once though a control centre has no room for what comes next"""
    outstation = scene.outstation()
    scene.begin(scene.settings(dict(k=1, w=1, queue=4), points(1)))
    link, centre, times = scene.accept(outstation), scene.started(), []
    link.send(response(0))
    for number in range(5):
        link.confirmed(unsolicited(number, events(range(4))))
        began = time.monotonic()
        link.write(frame(b"", 0x49))
        same("an answer of the link", link.frame(), (0x8B, b""))
        times.append(time.monotonic() - began)
        for octets in news(range(4)):
            centre.takes(octets)
            centre.acknowledge()
    if median(times) > ORDER_HOLD / 2:
        raise Difference(f"an answer of the link: wanted in {ORDER_HOLD / 2} s, got in {median(times):.3f} s")


@case
def orders_while_held(scene: Scene) -> None:
    """orders of an outstation that is held back: they are given at once, each of ten fragments in front of an echo waits for
    250 ms, and what becomes of them is told"""
    scene.passed_over += DROPPED + ORDERED
    outstation = scene.outstation()
    scene.begin(scene.settings(dict(k=1, w=1, queue=4), points(1), CONTROLS))
    link = scene.accept(outstation)
    link.send(response(0))
    # The one reads slowly, the other operates.
    Reader(scene.started(), late=0.2, every=1)
    operator = Reader(scene.started(), every=1)
    link.confirmed(unsolicited(0, events(range(4))))
    began = time.monotonic()
    link.confirmed(unsolicited(1, events(range(4))))
    within("a fragment without an order", time.monotonic() - began, 2 * ORDER_HOLD, HOLD)

    def echoes(number: int, function: int, objects: bytes, fragments: Iterable[int]) -> None:
        """The request of this number comes, and is answered behind so many unsolicited fragments."""
        link.request(number, bytes([function]) + objects)
        began, fronts = time.monotonic(), [unsolicited(2 + it, events(range(4))) for it in fragments]
        link.write(b"".join(b"".join(link.frames(it)) for it in [*fronts, response(number, objects)]))
        for it in fronts:
            link.wants(confirmation(it))
        within(f"{len(fronts)} fragments", time.monotonic() - began, 0, len(fronts) * ORDER_HOLD)

    command = asdu(49, ACTIVATION, SETPOINT, "FE FF 00")
    operator.ask(command)
    echoes(1, SELECT, analog(4, -2), range(10))
    echoes(2, OPERATE, analog(4, -2), range(10, 20))
    answers = [asdu(49, cause, SETPOINT, "FE FF 00") for cause in (CONFIRMATION, TERMINATION)]

    def answered() -> list[bytes]:
        return [it for it in list(operator.told) if it[0] == 49]

    operator.until("the outcome", lambda: len(answered()) == 2, PATIENCE)
    same("the answers to a command", answered(), answers)
    # An answer that waits already is taken soon once an order comes, which is given then.
    link.confirmed(unsolicited(22, events(range(4))))
    link.confirmed(bytes([0xF7, 0x82, 0x02, 0]))
    link.request(3, EVENTS)
    answer = response(3, events(range(4)), con=True)
    link.send(answer)
    link.quiet(0.1)
    began = time.monotonic()
    operator.ask(OFF_COMMAND)
    link.wants(confirmation(answer))
    link.operated(4, DIRECT_OPERATE, latch(6, False))
    within("an order behind an answer that waits", time.monotonic() - began, 0, ORDER_HOLD + 0.5 - SLACK)
    operator.until("the outcome", lambda: asdu(46, TERMINATION, DOUBLE, "01") in operator.told, PATIENCE)


# ---- outstations that are let rest


@case
def endless_events(scene: Scene) -> None:
    """behind ten requests in a row, for events that never end, the gateway rests ever longer; each counts as answered"""
    outstation, link = scene.watched(status=True)
    for number in range(16):
        began = time.monotonic()
        link.send(response(number, iin=0x0E))
        link.request(number + 1, EVENTS)
        rest = 0 if number < 9 else RESTS[number - 9]
        within(f"request {number + 1}", time.monotonic() - began, rest, rest)
    # Behind an answer that brings events there is none.
    began = time.monotonic()
    for number in range(16, 66):
        link.confirmed(response(number, UNMAPPED, con=True, iin=0x0E))
        link.request(number + 1, EVENTS)
    within("50 answers with events", time.monotonic() - began, 0, 2 - SLACK)
    scene.has_figures(outstation.labels, outstation_requests_total=67, outstation_unanswered_requests_total=0)


class Stuck(Task):
    """An outstation whose indications stay, which answers each request so many seconds later: orders by their echo, others with
    no object."""

    def __init__(self, link: Link, iin: int, delay: float = 0) -> None:
        self.link, self.iin, self.delay, self.came = link, iin, delay, []
        super().__init__(link, self.answer)

    def answer(self) -> None:
        self.link.send(response(0, iin=self.iin))
        while True:
            fragment = self.link.fragment()
            self.came.append((time.monotonic(), fragment[1]))
            time.sleep(self.delay)
            self.link.send(response(fragment[0] & 0x0F, fragment[2:] if fragment[1] in ORDERS else b"", iin=self.iin))

    def rests(self, first: int) -> None:
        """Behind so many requests the others came ever more rarely."""
        times = [at for at, _ in self.came]
        gaps = [later - earlier for earlier, later in zip(times[first - 1 :], times[first:])]
        if not 7 <= len(gaps) <= len(RESTS) + 2:
            raise Difference(f"requests behind the first {first}: wanted 7 to {len(RESTS) + 2}, got {len(gaps)}")
        for rest, gap in zip(RESTS, gaps):
            within("a rest", gap, rest, rest)


@case
def stuck_indications(scene: Scene) -> None:
    """outstations whose indications stay are asked ever more rarely, once a second at last; others as their periods say"""
    # The time is wanted, events wait, both, and events on a line that takes 30 ms; with how many requests come before the rests.
    stuck = [(0x10, 0, 10), (0x0E, 0, 9), (0x1E, 0, 9), (0x0E, 0.03, 9)]
    outstations = [scene.outstation(lan_time=True) for _ in stuck]
    well = scene.outstation(poll_ms=100)
    scene.begin(scene.settings({}, points(1)))
    peers = [Stuck(scene.accept(it), iin, delay) for it, (iin, delay, _) in zip(outstations, stuck)]
    polled = Stuck(scene.accept(well), 0)
    for outstation in (outstations[0], outstations[2]):
        scene.told(f"{outstation.name} {TROUBLES[2]}")
    time.sleep(4)
    for peer, (_, _, first) in zip(peers, stuck):
        peer.rests(first)
    if len(polled.came) < 20:
        raise Difference(f"polls of an outstation that is well: wanted 20, got {len(polled.came)}")


@case
def no_answer_behind_a_rest(scene: Scene) -> None:
    """behind rests an answer doesn't come: events are told meanwhile, the next poll comes by its period, and no rest before
    ten more"""
    outstation = scene.outstation(response_ms=500, poll_ms=1500)
    scene.begin(scene.settings({}, points(1)))
    link, centre, gaps = scene.accept(outstation), scene.started(), []
    for number in range(13):
        began = time.monotonic()
        link.send(response(number, iin=0x02))
        link.request(number + 1, EVENTS)
        gaps.append(time.monotonic() - began)
    for rest, gap in zip(RESTS, gaps[9:]):
        within("a rest", gap, rest, rest)
    began = time.monotonic()
    link.confirmed(unsolicited(0, events([2])))
    centre.takes(BINARY_ON)
    link.request(14, EVENTS)
    within("the next poll", time.monotonic() - began, 1.4, 1.5 + TICK)
    began = time.monotonic()
    for number in range(14, 23):
        link.send(response(number, iin=0x02))
        link.request(number + 1, EVENTS)
    within("nine more", time.monotonic() - began, 0, 0.5 - SLACK)
