"""Judges of what `crates/sim` plays: they read the lines that it writes, and share no code with it.

A line has the virtual time in milliseconds, a word and numbers. The first lines are the numbers of the scenario. Each judge has a
method for each word that it looks at, and raises `Fault` where something is wrong.
"""
from collections import defaultdict, deque
from collections.abc import Callable, Iterable
from dataclasses import dataclass, field

from judges.fault import Fault, need

# The first addresses, as `crates/sim_peers/src/site.rt` has them in the settings.
FIRST_COMMON, FIRST_POINT, FIRST_CONTROL = 101, 1000, 5000
ALL_COMMON = 0xFFFF
OUTSTATION, CENTRE = 0, 1
READER, WRITER = 0, 1
# Causes of transmission, and the bit of a negative confirmation.
SPONTANEOUS, CONFIRMATION, TERMINATION, NEGATIVE = 3, 7, 10, 0x40
# Bit string of 32 bits with time: what is told of an event. Events alone have a time.
WITH_TIME = 33
START_ACT, STOP_ACT, TEST_ACT, TEST_CON = 0x07, 0x13, 0x43, 0x83
# What is told of an APDU in place of the function of a U format.
S_FORMAT, COMMAND, OTHER = 1, 2, 0
CONFIRM, SELECT, OPERATE, DIRECT_OPERATE, RELAY, SET_POINT = 0, 3, 4, 5, 12, 49
# The gateway's own milliseconds: from one tick to the next, from the end of a connection to an outstation to the next, from one
# look of a client's reader to the next, from one look whether centres have room to the next.
TICK, PAUSE, LOOK, NAP = 100, 1000, 250, 5
# The milliseconds behind which the status of a quiet link is asked for, how long a reader waits for octets at most, and how long an
# outstation rests at most behind a streak of requests.
QUIET, LONGEST_WAIT, LONGEST_REST = 60_000, 4000, 1000
# Behind how many requests of a streak it rests, and how long at least; by which functions a clock is set; behind how many answers
# after a restart that is known to be cleared.
STREAK, SHORTEST_REST, AT_ONCE, UNSURE = 10, 20, (2, 24), 4
# How a reader ends if nothing of what comes is an answer, and if the status of the link doesn't come.
UNANSWERED, LINK_UNANSWERED = 3, 4
# How many orders of an outstation wait at most or are under way, and how many passes there are.
MOST_ORDERS, PASSES = 17, 81
# What the peers do: the milliseconds from one poll to the next where they are rare, from the front of what was cut to its end, from
# the first outstation's connection to that of the next; into how many fragments the events go that an outstation keeps; how many
# pieces are on their way to a centre at most; how many fragments, repetitions among them, an outstation has on their way at most.
QUIET_POLL, CUT, STAGGER, FRAGMENTS, PIECES, UNDER_WAY = 200_000, 50, 7, 8, 5, 6
NEVER = 1 << 62


class Judge:
    """A judge of one play, by its numbers.

    Limits are reckoned from the numbers of the scenario alone: what is set (k, w, t1, t3, the polls, the time for a response), what
    was drawn for the network (latency, stalls, cuts) and for the host (how long workers stand still). Workers of the gateway, peers
    and network take no time but these, so a limit holds to the millisecond."""

    def __init__(self, numbers: dict[str, int]) -> None:
        self.numbers = numbers
        # A writer that was woken goes on after so many milliseconds at most.
        self.hold = numbers["hold_ms"]
        # From one tick to the next: a tick comes late by as much.
        self.tick_gap = TICK + self.hold
        # How long octets are on their way at most. What was sent before doesn't make it longer, since that came as soon.
        self.way = numbers["latency_ms"] + numbers["stall_ms"] + (CUT if numbers["cut"] else 0)
        # What a centre waits for comes within so long, or another I format does: the acknowledgement that makes room is on its way
        # to the gateway, whose writer is woken; or the pieces on their way are read one by one, before a write goes on. Then what
        # it waits for is on its way, behind the pieces on theirs.
        slow = PIECES * numbers["slow_ms"]
        self.told_within = max(self.way + self.hold, self.way + slow) + self.way + slow
        # For how long an outstation is held back at most, for centres that have no room.
        self.held = numbers["response_ms"] // 4 + NAP

    def end(self) -> None:
        """The last line was read."""


class Workers(Judge):
    """Workers end together and connections are made again; in the end no worker, pass or octet is left."""

    def __init__(self, numbers: dict[str, int]) -> None:
        super().__init__(numbers)
        self.open: set[tuple[int, int]] = set()
        # Until when the workers of a connection have to have ended of which one has, or which the gateway has closed.
        self.ending: dict[tuple[int, int], int] = {}
        # Since when there is none.
        self.down = {(OUTSTATION, it): STAGGER * it - PAUSE for it in range(numbers["outstations"])}
        self.is_stopping = False
        self.left: int | None = None
        self.passes: int | None = None

    def tick(self, now: int) -> None:
        for key, until in self.ending.items():
            need(now <= until, "ends", f"a worker of {key} goes on alone behind {until}")
        if not self.is_stopping:
            for key, since in self.down.items():
                need(now - since <= PAUSE, "reconnects", f"{key} isn't connected again since {since}")

    def end_by(self, key: tuple[int, int], until: int) -> None:
        self.ending[key] = min(until, self.ending.get(key, until))

    def on_opened(self, now: int, kind: int, peer: int) -> None:
        self.tick(now)
        need((kind, peer) not in self.ending, "ends", f"{(kind, peer)} is connected while a worker is at work")
        self.down.pop((kind, peer), None)
        self.open.add((kind, peer))

    def on_ended(self, now: int, kind: int, peer: int, worker: int, end: int) -> None:
        self.tick(now)
        # The socket is shut, so a reader ends at once; a loss wakes a writer.
        self.end_by((kind, peer), now + self.hold)

    def on_closed(self, now: int, kind: int, peer: int) -> None:
        self.tick(now)
        self.ending.pop((kind, peer), None)
        self.open.discard((kind, peer))
        if kind == OUTSTATION:
            self.down[kind, peer] = now

    def on_expired(self, now: int, closed: int) -> None:
        self.tick(now)
        # A writer that waits for its socket isn't woken: then the reader finds it when it looks.
        for centre in (it for it in range(8) if closed >> it & 1):
            self.end_by((CENTRE, centre), now + LOOK + self.hold)

    def on_stopping(self, now: int) -> None:
        self.tick(now)
        self.is_stopping = True
        for key in self.open:
            self.end_by(key, now + self.hold)

    def on_left(self, now: int, count: int) -> None:
        self.tick(now)
        self.left = count

    def on_total(self, now: int, passes: int, calls: int) -> None:
        self.passes = passes

    def on_livelock(self, now: int) -> None:
        raise Fault("livelock", "a worker takes turn after turn, and nothing comes of it")

    def on_garbage(self, now: int, outstation: int) -> None:
        raise Fault("frames", f"octets of no frame come to outstation {outstation}")

    def on_gap(self, now: int, centre: int, number: int) -> None:
        raise Fault("numbers", f"centre {centre} gets N(S) {number}")

    def on_no_apdu(self, now: int, centre: int) -> None:
        raise Fault("apdus", f"octets of no APDU come to centre {centre}")

    def on_skipped(self, now: int, outstation: int, octets: int) -> None:
        raise Fault("skipped", f"octets of outstation {outstation} were skipped")

    def on_refused(self, now: int, outstation: int) -> None:
        raise Fault("refused", f"a fragment of outstation {outstation} was refused")

    def end(self) -> None:
        need(self.left == 0, "left", f"{self.left} workers are left")
        need(self.passes == PASSES, "passes", f"{self.passes} passes came back")


@dataclass
class Sent:
    """A value in a fragment that was sent."""

    value: int
    fragment: int
    moment: int


@dataclass
class Session:
    """A data transfer: where in what each outstation sent it began, and how far it was told. It begins and stops as the gateway
    takes STARTDT and STOPDT; the centre is told by it from the confirmation of the one to that of the other, so another one may
    have begun meanwhile."""

    begin: int
    first: list[int]
    place: list[int]
    told: list[set[int]]
    newest: list[int]
    # The last value of each outstation that is to be told, and how many news had come when it was sent.
    wanted: list[int]
    marks: list[int]
    # Since when something is to be told, and nothing was; until when the centre is known not to read.
    waiting: int | None = None
    mute: int = 0
    dropped: int = 0
    is_confirmed: bool = False
    stopped: int | None = None

    def is_behind(self, kept: int) -> bool:
        """Whether something is to be told, which isn't one of the news before so many, of which some may have been dropped."""
        behind = zip(self.wanted, self.newest, self.marks)
        return any(wanted > newest and mark >= kept for wanted, newest, mark in behind)


class News(Judge):
    """Each confirmed event is told to each centre with data transfer, once and in order, but for what is counted as dropped; and it
    doesn't have to wait while the centre reads."""

    def __init__(self, numbers: dict[str, int]) -> None:
        super().__init__(numbers)
        count = numbers["outstations"]
        self.sent: list[list[Sent]] = [[] for _ in range(count)]
        self.places: list[dict[int, list[int]]] = [defaultdict(list) for _ in range(count)]
        self.statics: list[set[tuple[int, int]]] = [set() for _ in range(count)]
        # The last value in each fragment, and how many news had come when it was sent; how many have come.
        self.fragments: list[dict[int, tuple[int, int]]] = [{} for _ in range(count)]
        self.news = 0
        self.confirmed: list[dict[int, int]] = [{} for _ in range(count)]
        # The sessions of each centre's connection of which it doesn't know yet that they have ended, oldest first.
        self.sessions: dict[int, deque[Session]] = defaultdict(deque)
        self.mute: dict[int, int] = defaultdict(int)

    def on_event(self, now: int, outstation: int, fragment: int, *events: int) -> None:
        places, sent = self.places[outstation], self.sent[outstation]
        for value in events[1::2]:
            places[value].append(len(sent))
            sent.append(Sent(value, fragment, now))
        self.fragments[outstation][fragment] = (events[-1], self.news)

    def on_static(self, now: int, outstation: int, point: int, value: int, fragment: int) -> None:
        self.statics[outstation].add((point, value))

    def on_confirmed(self, now: int, outstation: int, fragment: int) -> None:
        self.confirmed[outstation][fragment] = now
        newest, mark = self.fragments[outstation].get(fragment, (0, 0))
        if not newest:
            return
        sent = self.sent[outstation][self.places[outstation][newest][-1]]
        for session in (it for all_of_one in self.sessions.values() for it in all_of_one):
            if sent.moment > session.begin and session.stopped is None and newest > session.wanted[outstation]:
                session.wanted[outstation], session.marks[outstation] = newest, mark
                if session.waiting is None and session.is_behind(self.kept()):
                    session.waiting = now

    def kept(self) -> int:
        """Behind how many news no centre lacks any."""
        return self.news - self.numbers["queue"]

    def on_accepted(self, now: int, outstation: int, answers: int, observations: int, news: int, ends: int) -> None:
        if news:
            self.bring(news)

    def bring(self, count: int) -> None:
        """So many news come."""
        self.news += count
        for session in (it for all_of_one in self.sessions.values() for it in all_of_one):
            if session.waiting is not None and not session.is_behind(self.kept()):
                session.waiting = None

    def on_mute(self, now: int, centre: int, until: int) -> None:
        self.mute[centre] = until
        for session in self.sessions[centre]:
            session.mute = until

    def on_took(self, now: int, centre: int, acknowledged: int, signal: int) -> None:
        sessions = self.sessions[centre]
        stands = bool(sessions) and sessions[-1].stopped is None
        if signal == START_ACT and not stands:
            places = [len(it) for it in self.sent]
            none = [0] * len(places)
            told: list[set[int]] = [set() for _ in places]
            sessions.append(Session(now, places, none[:], told, none[:], none[:], none[:], None, self.mute[centre]))
        if signal == STOP_ACT and stands:
            sessions[-1].stopped = now

    def on_started(self, now: int, centre: int) -> None:
        if self.sessions[centre]:
            self.sessions[centre][0].is_confirmed = True

    def on_told(self, now: int, centre: int, common: int, cause: int, kind: int, *told: int) -> None:
        session = self.sessions[centre][0] if self.sessions[centre] else None
        need(session is not None and session.is_confirmed, "transfer", f"centre {centre} is told something without data transfer")
        outstation = common - FIRST_COMMON
        if cause == SPONTANEOUS and kind == WITH_TIME:
            self.tell(session, centre, outstation, told[1::3])
        elif cause == SPONTANEOUS:
            for address, value, quality in zip(told[::3], told[1::3], told[2::3]):
                is_right = quality != 0 or (address - FIRST_POINT, value) in self.statics[outstation]
                need(is_right, "static", f"centre {centre} is told {value} of no static value")
        if session.waiting is not None:
            self.go_on(session, centre, now)

    def on_interrogated(self, now: int, centre: int, common: int, cause: int) -> None:
        self.get(centre, now)

    def on_answer(self, now: int, centre: int, common: int, address: int, kind: int, cause: int) -> None:
        self.get(centre, now)

    def get(self, centre: int, now: int) -> None:
        """Another I format comes, behind which events may wait."""
        if self.sessions[centre] and self.sessions[centre][0].waiting is not None:
            self.go_on(self.sessions[centre][0], centre, now)

    def tell(self, session: Session, centre: int, outstation: int, values: tuple[int, ...]) -> None:
        place, places = session.place[outstation], self.places[outstation]
        for value in values:
            # Mostly an event is sent once.
            found = next((it for it in places.get(value, ()) if it >= place), None)
            if found is None:
                raise Fault("order", f"centre {centre} is told event {value} of outstation {outstation} out of order or twice")
            place = found + 1
        session.place[outstation] = place
        session.told[outstation].update(values)
        session.newest[outstation] = max(session.newest[outstation], *values)

    def go_on(self, session: Session, centre: int, now: int) -> None:
        self.check_waiting(session, centre, now)
        session.waiting = now if session.is_behind(self.kept()) else None

    def check_waiting(self, session: Session, centre: int, now: int) -> None:
        if session.waiting is None:
            return
        since = max(session.waiting, session.mute)
        text = f"centre {centre} was told nothing from {since} to {now}, though events wait"
        need(now - since <= self.told_within, "waiting", text)

    def on_dropped(self, now: int, centre: int, count: int) -> None:
        if self.sessions[centre]:
            self.sessions[centre][-1].dropped += count

    def on_stopped(self, now: int, centre: int) -> None:
        self.end_session(centre, now)

    def on_ended(self, now: int, kind: int, peer: int, worker: int, end: int) -> None:
        if kind == CENTRE:
            self.on_leave(now, peer)
        else:
            # That each of its points isn't topical any more is news.
            self.bring(self.numbers["points"])

    def on_closed(self, now: int, kind: int, peer: int) -> None:
        if kind == CENTRE:
            while self.sessions[peer]:
                self.end_session(peer, now)

    def on_leave(self, now: int, centre: int) -> None:
        for session in self.sessions[centre]:
            if session.stopped is None:
                session.stopped = now

    def end_session(self, centre: int, now: int) -> None:
        if not self.sessions[centre]:
            return
        session = self.sessions[centre].popleft()
        last = now if session.stopped is None else session.stopped
        self.check_waiting(session, centre, last)
        missing = []
        for outstation, sent in enumerate(self.sent):
            confirmed, told, newest = self.confirmed[outstation], session.told[outstation], session.newest[outstation]
            for it in sent[session.first[outstation] :]:
                when = confirmed.get(it.fragment)
                if when is not None and it.moment > session.begin and it.value < newest and it.value not in told:
                    missing.append((outstation, it.value))
        need(
            len(missing) <= session.dropped,
            "missing",
            f"centre {centre} wasn't told {len(missing)} events, of which {session.dropped} are counted as dropped: {missing[:5]}",
        )


@dataclass
class Interrogation:
    """An interrogation that a centre has sent: what was confirmed then, and which common addresses are still to be answered for."""

    confirmed: dict[tuple[int, int], int]
    left: list[int]
    is_confirmed: bool = False


class Mirrors(Judge):
    """Behind an interrogation a centre has the last values: none older than what was confirmed when it asked, and none that was
    never sent."""

    def __init__(self, numbers: dict[str, int]) -> None:
        super().__init__(numbers)
        self.sent: dict[tuple[int, int], int] = {}
        self.fragments: dict[tuple[int, int], list[tuple[int, int]]] = {}
        self.confirmed: dict[tuple[int, int], int] = {}
        self.mirrors: dict[int, dict[tuple[int, int], int]] = defaultdict(dict)
        # The interrogations of each centre that aren't answered to the end, oldest first.
        self.asked: dict[int, list[Interrogation]] = defaultdict(list)

    def on_event(self, now: int, outstation: int, fragment: int, *events: int) -> None:
        pairs = list(zip(events[::2], events[1::2]))
        for point, value in pairs:
            self.sent[outstation, point] = max(value, self.sent.get((outstation, point), 0))
        self.fragments[outstation, fragment] = pairs

    def on_static(self, now: int, outstation: int, point: int, value: int, fragment: int) -> None:
        self.sent[outstation, point] = max(value, self.sent.get((outstation, point), 0))

    def on_confirmed(self, now: int, outstation: int, fragment: int) -> None:
        for point, value in self.fragments.pop((outstation, fragment), ()):
            self.confirmed[outstation, point] = max(value, self.confirmed.get((outstation, point), 0))

    def on_interrogate(self, now: int, centre: int, common: int) -> None:
        commons = range(FIRST_COMMON, FIRST_COMMON + self.numbers["outstations"]) if common == ALL_COMMON else (common,)
        self.asked[centre].append(Interrogation(dict(self.confirmed), list(commons)))

    def on_stopped(self, now: int, centre: int) -> None:
        self.asked.pop(centre, None)

    def on_closed(self, now: int, kind: int, peer: int) -> None:
        if kind == CENTRE:
            self.asked.pop(peer, None)

    def on_told(self, now: int, centre: int, common: int, cause: int, kind: int, *told: int) -> None:
        mirror, outstation = self.mirrors[centre], common - FIRST_COMMON
        for address, value in zip(told[::3], told[1::3]):
            mirror[outstation, address - FIRST_POINT] = value

    def on_interrogated(self, now: int, centre: int, common: int, cause: int) -> None:
        asked = self.asked[centre]
        need(bool(asked), "interrogated", f"centre {centre} gets an answer to no interrogation")
        if cause == CONFIRMATION | NEGATIVE:
            self.refuse(centre, common)
            return
        first = asked[0]
        if cause == CONFIRMATION:
            is_next = first.left[:1] == [common] and not first.is_confirmed
            need(is_next, "interrogated", f"centre {centre} gets a confirmation for {common} out of order")
            first.is_confirmed = True
            return
        need(cause == TERMINATION and first.is_confirmed, "interrogated", f"centre {centre} gets cause {cause}")
        self.compare(centre, common, first)
        first.is_confirmed = False
        first.left.pop(0)
        if not first.left:
            asked.pop(0)

    def refuse(self, centre: int, common: int) -> None:
        """Another one is still being answered: it is refused at once, under the first common address that it asks. What answers the
        other goes on behind."""
        asked = self.asked[centre]
        refused = next((it for it in asked[1:] if it.left[0] == common), None)
        need(refused is not None, "interrogated", f"an interrogation of centre {centre} is refused, though none is being answered")
        asked.remove(refused)

    def compare(self, centre: int, common: int, asked: Interrogation) -> None:
        mirror, outstation = self.mirrors[centre], common - FIRST_COMMON
        for point in range(self.numbers["points"]):
            key = (outstation, point)
            value, least, most = mirror.get(key), asked.confirmed.get(key, 0), self.sent.get(key, 0)
            need(
                value is not None and least <= value <= most,
                "mirror",
                f"centre {centre} has {value} of point {point} of outstation {outstation}, not {least} to {most}",
            )


@dataclass
class Asked:
    """A command that a centre has sent; whether the gateway has judged it, as which order, and since when its answer is due."""

    key: tuple[int, int, int]
    moment: int
    is_select: bool
    judged: int | None = None
    order: int = 0
    due: int | None = None


class Orders(Judge):
    """Each order has one fate, and is operated once at most; each command is confirmed once, and terminated if it was done."""

    def __init__(self, numbers: dict[str, int]) -> None:
        super().__init__(numbers)
        self.open: dict[int, Asked] = {}
        self.terminations: dict[int, tuple[int, int, int]] = {}
        self.fates: dict[int, int] = {}
        self.given: dict[tuple[int, int], int] = defaultdict(int)
        self.ordered: dict[tuple[int, int], int] = defaultdict(int)
        self.done: dict[tuple[int, int], int] = defaultdict(int)
        self.operated: dict[tuple[int, int], int] = defaultdict(int)
        self.set_points: dict[tuple[int, int, int], int] = defaultdict(int)
        # Since when nothing is under way to an outstation; until when a centre is known not to read.
        self.free: dict[int, int] = {}
        self.mute: dict[int, int] = defaultdict(int)
        # An order waits for the answer under way, and then for the orders before it, each of one request or two. A request takes as
        # long as a response may, and is given up at a tick.
        requests = FRAGMENTS + MOST_ORDERS * (2 if numbers["sbo"] else 1)
        self.limit = requests * (numbers["response_ms"] + self.tick_gap + self.hold)

    def on_selects(self, now: int, centre: int, common: int, address: int, kind: int, value: int) -> None:
        self.open[centre] = Asked((common, address, kind), now, True)

    def on_order(self, now: int, centre: int, common: int, address: int, kind: int, value: int) -> None:
        self.open[centre] = Asked((common, address, kind), now, False)
        outstation, index = common - FIRST_COMMON, address - FIRST_CONTROL
        self.ordered[outstation, index] += 1
        if kind == SET_POINT:
            self.set_points[outstation, index, value] += 1

    def on_mute(self, now: int, centre: int, until: int) -> None:
        self.mute[centre] = until

    def on_answer(self, now: int, centre: int, common: int, address: int, kind: int, cause: int) -> None:
        key = (common, address, kind)
        if cause & ~NEGATIVE == TERMINATION:
            need(self.terminations.pop(centre, None) == key, "termination", f"centre {centre} gets a termination of no order")
            return
        need(centre not in self.terminations, "termination", f"centre {centre} gets no termination of its order")
        asked = self.open.pop(centre, None)
        need(asked is not None and asked.key == key, "confirmation", f"centre {centre} gets a confirmation of no command")
        if cause == CONFIRMATION and not asked.is_select:
            self.terminations[centre] = key
            self.done[common - FIRST_COMMON, address - FIRST_CONTROL] += 1

    def on_told(self, now: int, centre: int, *told: int) -> None:
        # An order is confirmed once its outcome is known, which terminates it: nothing comes between.
        need(centre not in self.terminations, "termination", f"centre {centre} gets no termination of its order")

    def on_interrogated(self, now: int, centre: int, common: int, cause: int) -> None:
        self.on_told(now, centre)

    def on_unconfirmed(self, now: int, centre: int) -> None:
        asked = self.open.pop(centre, None)
        if asked is None:
            return
        # It waits for much longer than a command is on its way.
        need(asked.judged is not None, "unconfirmed", f"the command of centre {centre} of {asked.moment} isn't judged")
        if asked.due is None:
            need(now - asked.judged <= self.limit, "late fate", f"order {asked.order} has no fate since {asked.judged}")
            return
        since = max(asked.due, self.mute[centre])
        # Other answers may come before it.
        text = f"centre {centre} gets no confirmation, which is due since {since}"
        need(now - since <= 3 * self.told_within, "unconfirmed", text)

    def on_stopped(self, now: int, centre: int) -> None:
        # What was on its way when the centre sent STOPDT comes before the confirmation of that.
        self.forget(centre)

    def on_ended(self, now: int, kind: int, peer: int, worker: int, end: int) -> None:
        if kind == CENTRE:
            self.forget(peer)

    def on_leave(self, now: int, centre: int) -> None:
        self.forget(centre)

    def forget(self, centre: int) -> None:
        self.open.pop(centre, None)
        self.terminations.pop(centre, None)

    def on_judged(self, now: int, centre: int, order: int, refusal: int) -> None:
        asked = self.open.get(centre)
        if asked is not None:
            asked.judged, asked.order, asked.due = now, order, None if order else now
        if order:
            need(order not in self.fates, "accepted", f"order {order} is accepted twice")
            self.fates[order] = now

    def on_fate(self, now: int, outstation: int, centre: int, order: int) -> None:
        began = self.fates.get(order)
        need(began is not None and began >= 0, "fate", f"order {order} has a second fate, or wasn't accepted")
        need(now - began <= self.limit, "late fate", f"order {order} has its fate after {now - began} ms")
        self.fates[order] = -1
        asked = self.open.get(centre)
        if asked is not None and asked.order == order:
            asked.due = now

    def on_asked(self, now: int, outstation: int, function: int, order: int) -> None:
        if function in (SELECT, OPERATE, DIRECT_OPERATE):
            # An order that comes, and the end of what was under way, wake the writer.
            since = max(self.fates.get(order, now), self.free.get(outstation, now))
            text = f"order {order} waits {now - since} ms, though outstation {outstation} is free"
            need(now - since <= self.hold, "free", text)
        if function in (SELECT, OPERATE, DIRECT_OPERATE):
            self.given[order, function] += 1
            need(self.given[order, function] == 1, "given", f"order {order} is given twice")

    def on_opened(self, now: int, kind: int, peer: int) -> None:
        if kind == OUTSTATION:
            self.free[peer] = now

    def on_accepted(self, now: int, outstation: int, answers: int, observations: int, news: int, ends: int) -> None:
        if ends:
            self.free[outstation] = now

    def on_unanswered(self, now: int, outstation: int) -> None:
        self.free[outstation] = now

    def on_operate(self, now: int, outstation: int, group: int, index: int, value: int) -> None:
        key = (outstation, index)
        self.operated[key] += 1
        text = f"control {index} of outstation {outstation} was never ordered so often"
        need(self.operated[key] <= self.ordered[key], "operated", text)
        if group != RELAY:
            self.set_points[outstation, index, value] -= 1
            text = f"set point {value} comes to outstation {outstation} more often than it was ordered"
            need(self.set_points[outstation, index, value] >= 0, "operated", text)

    def end(self) -> None:
        for key, done in self.done.items():
            operated = self.operated[key]
            need(done <= operated, "done", f"control {key} was confirmed {done} times, operated {operated} times")


@dataclass
class Client:
    """What waits for a client's acknowledgement, when it was heard last, and when it was tested."""

    heard: int
    numbered: deque[int] = field(default_factory=deque)
    tested: int | None = None
    # Whether a write to it would wait, and until when one would have.
    is_blocked: bool = False
    blocked_until: int = 0


class ClientTimers(Judge):
    """t1 closes a connection in time, and no other one; t3 tests a quiet one in time."""

    def __init__(self, numbers: dict[str, int]) -> None:
        super().__init__(numbers)
        self.clients: dict[int, Client] = {}
        self.is_stopping = False

    def client(self, centre: int) -> Client:
        need(centre in self.clients, "gone", f"something is done for centre {centre}, which is gone")
        return self.clients[centre]

    def oldest(self, client: Client) -> int:
        numbered = client.numbered[0] if client.numbered else NEVER
        return min(numbered, NEVER if client.tested is None else client.tested)

    def look(self, now: int, centre: int) -> None:
        client = self.clients.get(centre)
        # Nobody ticks any more while the workers end.
        if client is None or self.is_stopping:
            return
        late = now - self.oldest(client) - self.numbers["t1_ms"]
        need(late <= self.tick_gap, "t1", f"t1 of centre {centre} has passed at {now}")
        if client.tested is None and not client.is_blocked:
            # A tick finds it, and wakes the writer; or that could go on only then.
            due = max(client.heard + self.numbers["t3_ms"] + self.tick_gap, client.blocked_until)
            need(now <= due + self.hold, "t3", f"t3 of centre {centre} has passed at {now}")

    def look_at_all(self, now: int) -> None:
        for centre in self.clients:
            self.look(now, centre)

    def on_opened(self, now: int, kind: int, peer: int) -> None:
        if kind == CENTRE:
            self.clients[peer] = Client(now)

    def on_blocked(self, now: int, centre: int) -> None:
        if centre in self.clients:
            self.look(now, centre)
            self.clients[centre].is_blocked = True

    def on_unblocked(self, now: int, centre: int) -> None:
        if centre in self.clients:
            self.clients[centre].is_blocked = False
            self.clients[centre].blocked_until = now

    def on_took(self, now: int, centre: int, acknowledged: int, signal: int) -> None:
        self.look_at_all(now)
        client = self.client(centre)
        need(acknowledged <= len(client.numbered), "acknowledged", f"centre {centre} acknowledges more than it was given")
        for _ in range(acknowledged):
            client.numbered.popleft()
        if signal == TEST_CON:
            client.tested = None
        client.heard = now

    def on_gave(
        self, now: int, centre: int, numbered: int, tests: int, confirmations: int, acknowledgements: int, more: int
    ) -> None:
        client = self.client(centre)
        client.numbered.extend([now] * numbered)
        need(len(client.numbered) <= self.numbers["k"], "k", f"centre {centre} was given more than k")
        if tests:
            need(now - client.heard >= self.numbers["t3_ms"], "t3", f"centre {centre} is tested before t3, at {now}")
            need(client.tested is None, "t3", f"centre {centre} is tested twice, at {now}")
            client.tested = now
        self.look(now, centre)

    def on_stopping(self, now: int) -> None:
        self.look_at_all(now)
        self.is_stopping = True

    def on_expired(self, now: int, closed: int) -> None:
        for centre in (it for it in range(8) if closed >> it & 1):
            client = self.client(centre)
            del self.clients[centre]
            late = now - self.oldest(client) - self.numbers["t1_ms"]
            need(0 <= late <= self.tick_gap, "t1", f"t1 closes centre {centre} {late} ms after its time")

    def on_ended(self, now: int, kind: int, peer: int, worker: int, end: int) -> None:
        if kind == CENTRE:
            self.look(now, peer)
            self.clients.pop(peer, None)


@dataclass
class Due:
    """What is known to wait for a client's writer: confirmations of U formats, an I format, an acknowledgement."""

    is_started: bool = False
    confirmations: int = 0
    waits: bool = False
    # How many I formats aren't acknowledged: by the client, and by the gateway.
    numbered: int = 0
    owed: int = 0
    owed_since: int = 0
    is_blocked: bool = False
    # Since when something of it may be put out.
    since: int | None = None


class Writers(Judge):
    """What waits for a centre is put out as soon as it may be: a writer that has something to do is woken at once. So it comes no
    later than the writer may stand still. Whether something still waits behind a full window isn't known, unless more came."""

    def __init__(self, numbers: dict[str, int]) -> None:
        super().__init__(numbers)
        self.dues: dict[int, Due] = {}
        self.w = min(numbers["w"], numbers["k"])
        self.t2 = numbers["t1_ms"] // 2
        # The sessions in which orders were given, by centre and number.
        self.orders: dict[int, tuple[int, int]] = {}
        self.session: dict[int, int] = defaultdict(int)

    def settle(self, now: int, centre: int, due: Due) -> None:
        """Something has changed."""
        has_room = due.is_started and due.waits and due.numbered < self.numbers["k"]
        if due.is_blocked or not (has_room or due.confirmations or due.owed >= self.w):
            due.since = None
        elif due.since is None:
            due.since = now

    def look(self, now: int) -> None:
        for centre, due in self.dues.items():
            if due.since is not None:
                need(now - due.since <= self.hold, "woken", f"nothing is put out to centre {centre} since {due.since}")
            if due.owed and not due.is_blocked:
                # A tick finds that t2 has passed, and wakes the writer.
                late = now - due.owed_since - self.t2
                need(late <= self.tick_gap + self.hold, "t2", f"t2 of centre {centre} has passed at {now}")

    def on_opened(self, now: int, kind: int, peer: int) -> None:
        if kind == CENTRE:
            self.dues[peer] = Due()

    def on_took(self, now: int, centre: int, acknowledged: int, signal: int) -> None:
        self.look(now)
        due = self.dues.get(centre)
        if due is None:
            return
        due.numbered -= acknowledged
        if signal in (START_ACT, STOP_ACT, TEST_ACT):
            due.confirmations += 1
        if signal in (OTHER, COMMAND):
            due.owed_since = due.owed_since if due.owed else now
            due.owed += 1
        if signal == OTHER:
            # What isn't a command is answered at once.
            due.waits = True
        if signal == START_ACT and not due.is_started:
            due.is_started, due.waits = True, False
            self.session[centre] += 1
        if signal == STOP_ACT:
            due.is_started = due.waits = False
        self.settle(now, centre, due)

    def bring(self, now: int, centre: int) -> None:
        """An I format waits, where there is a session."""
        due = self.dues.get(centre)
        if due is not None and due.is_started:
            due.waits = True
            self.settle(now, centre, due)

    def on_judged(self, now: int, centre: int, order: int, refusal: int) -> None:
        if order:
            self.orders[order] = (centre, self.session[centre])
        else:
            self.bring(now, centre)

    def on_fate(self, now: int, outstation: int, centre: int, order: int) -> None:
        if self.orders.pop(order, None) == (centre, self.session[centre]):
            self.bring(now, centre)

    def on_accepted(self, now: int, outstation: int, answers: int, observations: int, news: int, ends: int) -> None:
        self.look(now)
        if news:
            for centre in self.dues:
                self.bring(now, centre)

    def on_gave(
        self, now: int, centre: int, numbered: int, tests: int, confirmations: int, acknowledgements: int, more: int
    ) -> None:
        self.look(now)
        due = self.dues.get(centre)
        if due is None:
            return
        due.numbered += numbered
        due.confirmations -= confirmations
        if numbered or acknowledgements:
            due.owed = 0
        if not more:
            need(due.confirmations == 0, "woken", f"{due.confirmations} confirmations for centre {centre} are left")
            due.waits = False
        due.since = None
        self.settle(now, centre, due)

    def on_blocked(self, now: int, centre: int) -> None:
        self.look(now)
        if centre in self.dues:
            self.dues[centre].is_blocked = True
            self.settle(now, centre, self.dues[centre])

    def on_unblocked(self, now: int, centre: int) -> None:
        if centre in self.dues:
            due = self.dues[centre]
            due.is_blocked = False
            # A tick may have passed meanwhile.
            due.owed_since = max(due.owed_since, now - self.t2 - self.tick_gap)
            self.settle(now, centre, due)

    def on_expired(self, now: int, closed: int) -> None:
        self.look(now)
        for centre in (it for it in range(8) if closed >> it & 1):
            self.dues.pop(centre, None)

    def on_ended(self, now: int, kind: int, peer: int, worker: int, end: int) -> None:
        if kind == CENTRE:
            self.dues.pop(peer, None)

    def on_stopping(self, now: int) -> None:
        self.look(now)
        self.dues.clear()


@dataclass
class Service:
    """How a connected outstation is served: since when an answer is awaited; when the last one ended, and when it was asked last;
    when a fragment was taken last, and one that wasn't a repetition; and until when it rests."""

    idle: int
    asked: int
    heard: int
    brought: int
    awaited: int | None = None
    rest: int = 0
    # When octets came although nothing had been taken for too long.
    over: int | None = None


class Answers(Judge):
    """A response is awaited as long as it may take and no longer; a connected outstation is polled; one that is silent is lost."""

    def __init__(self, numbers: dict[str, int]) -> None:
        super().__init__(numbers)
        self.services: dict[int, Service] = {}
        self.is_stopping = False
        self.response = numbers["response_ms"]
        self.poll = QUIET_POLL if numbers["quiet"] else numbers["poll_ms"]
        self.silence = self.poll + 3 * self.response
        # It rests behind a streak of requests, or is held back; what this takes beyond that is known by the next look.
        self.longest_rest = max(LONGEST_REST, self.held) + self.hold

    def due(self, service: Service) -> int:
        """When the next request is due at the latest, and its writer is woken: as an answer ends, or by the tick that finds it."""
        poll = service.asked + self.poll
        return service.idle if poll <= service.idle else poll + self.tick_gap

    def look(self, now: int, outstation: int, service: Service) -> None:
        if service.over is not None:
            text = f"outstation {outstation} isn't lost, of which nothing was taken since {service.heard}"
            need(now <= service.over, "silent", text)
        if service.awaited is not None:
            # A tick gives it up.
            late = now - service.awaited - self.response
            text = f"outstation {outstation} doesn't answer since {service.awaited}, which isn't told at {now}"
            need(late <= self.tick_gap, "response", text)
        elif not self.is_stopping:
            until = max(self.due(service), service.rest) + self.hold
            need(now <= until, "polled", f"outstation {outstation} isn't asked, which was due at {until} at the latest")

    def on_opened(self, now: int, kind: int, peer: int) -> None:
        if kind == OUTSTATION:
            # It is asked at once.
            self.services[peer] = Service(now, now - self.poll, now, now)

    def on_rests(self, now: int, outstation: int, milliseconds: int) -> None:
        service = self.services.get(outstation)
        if service is not None:
            service.rest = now + milliseconds
            most = max(self.due(service), service.brought) + self.longest_rest
            need(service.rest <= most, "rest", f"outstation {outstation} rests until {service.rest}, {most} at most")

    def on_asked(self, now: int, outstation: int, function: int, order: int) -> None:
        for other, service in self.services.items():
            self.look(now, other, service)
        asked = self.services.get(outstation)
        if asked is not None:
            need(asked.awaited is None, "asked", f"outstation {outstation} is asked while it is to answer")
            asked.awaited = asked.asked = now
            asked.rest = 0

    def on_accepted(self, now: int, outstation: int, answers: int, observations: int, news: int, ends: int) -> None:
        service = self.services.get(outstation)
        if service is None:
            return
        if answers:
            self.look(now, outstation, service)
            service.awaited = None if ends else now
            service.idle = now
        service.heard = service.brought = now
        service.over = None

    def on_repeated(self, now: int, outstation: int) -> None:
        if outstation in self.services:
            self.services[outstation].heard, self.services[outstation].over = now, None

    def on_octets(self, now: int, outstation: int) -> None:
        service = self.services.get(outstation)
        if service is not None:
            self.look(now, outstation, service)
            if service.over is None and now - service.heard >= self.silence:
                service.over = now

    def on_frame(self, now: int, outstation: int) -> None:
        self.on_octets(now, outstation)

    def on_unanswered(self, now: int, outstation: int) -> None:
        service = self.services.get(outstation)
        if service is None:
            return
        if service.awaited is not None:
            late = now - service.awaited - self.response
            text = f"outstation {outstation} is given up {late} ms after its time"
            need(0 <= late <= self.tick_gap, "response", text)
        service.awaited = None
        service.idle = now

    def on_ended(self, now: int, kind: int, peer: int, worker: int, end: int) -> None:
        if kind != OUTSTATION:
            return
        service = self.services.pop(peer, None)
        if service is not None and worker == READER and end == UNANSWERED:
            need(now - service.heard >= self.silence, "lost", f"outstation {peer} is lost at {now}, though it answers")

    def on_stopping(self, now: int) -> None:
        for outstation, service in self.services.items():
            self.look(now, outstation, service)
        self.is_stopping = True


@dataclass
class Streak:
    """Requests by which a clock is set, in a row, which bring nothing: how many were answered; how long the outstation rests behind
    them, and until when; when one that is no order was sent last; what the last two ask for. A WRITE behind another one, or soon
    behind a restart, may clear that instead."""

    sent: int
    answered: int = 0
    rest: int = 0
    until: int = 0
    function: int = 0
    before: int = 0
    unsure: int = 0
    is_order: bool = False
    has_brought: bool = False

    def end(self) -> None:
        self.answered = self.rest = self.until = 0


class Rests(Judge):
    """Behind a streak of requests an outstation rests, ever longer, but for orders, which don't end the streak."""

    def __init__(self, numbers: dict[str, int]) -> None:
        super().__init__(numbers)
        self.streaks: dict[int, Streak] = {}
        self.poll = QUIET_POLL if numbers["quiet"] else numbers["poll_ms"]

    def on_opened(self, now: int, kind: int, peer: int) -> None:
        if kind == OUTSTATION:
            self.streaks[peer] = Streak(now)

    def on_ended(self, now: int, kind: int, peer: int, worker: int, end: int) -> None:
        if kind == OUTSTATION:
            self.streaks.pop(peer, None)

    def on_asked(self, now: int, outstation: int, function: int, order: int) -> None:
        streak = self.streaks.get(outstation)
        if streak is None:
            return
        streak.is_order, streak.has_brought = bool(order), False
        if order:
            return
        streak.before, streak.function = streak.function, function
        if now - streak.sent >= self.poll:
            streak.end()
        text = f"outstation {outstation} is asked, and was to rest until {streak.until}"
        need(now >= streak.until, "streak", text)
        streak.sent = now

    def on_accepted(self, now: int, outstation: int, answers: int, observations: int, news: int, ends: int) -> None:
        streak = self.streaks.get(outstation)
        if streak is None or not answers:
            return
        if observations:
            streak.has_brought = True
            streak.end()
        if not ends or streak.is_order or streak.has_brought:
            return
        if streak.function not in AT_ONCE or streak.function == streak.before or streak.unsure:
            streak.unsure = max(streak.unsure - 1, 0)
            streak.end()
            return
        streak.answered += 1
        if streak.answered > STREAK:
            streak.rest = min(max(2 * streak.rest, SHORTEST_REST), LONGEST_REST)
            streak.until = now + streak.rest

    def on_restart(self, now: int, outstation: int) -> None:
        if outstation in self.streaks:
            self.streaks[outstation].unsure = UNSURE

    def on_unanswered(self, now: int, outstation: int) -> None:
        if outstation in self.streaks:
            self.streaks[outstation].end()


class Links(Judge):
    """The status of a link is asked for in time, once, and of a quiet one alone; a fragment is confirmed as often as it comes."""

    def __init__(self, numbers: dict[str, int]) -> None:
        super().__init__(numbers)
        self.heard: dict[int, int] = {}
        self.asked: dict[int, int] = {}
        # Links that have never answered aren't asked again.
        self.mute: set[int] = set()
        self.response = numbers["response_ms"]
        silence = 3 * self.response + (QUIET_POLL if numbers["quiet"] else numbers["poll_ms"])
        # A reader looks each time it has waited for octets for so long, and may stand still behind each wait. Fragments may have been
        # held back before, or a frame begun.
        wait = silence // (silence // LONGEST_WAIT + 1)
        waits = -(-QUIET // wait)
        self.limit = waits * (wait + numbers["hold_ms"]) + self.held + (CUT if numbers["cut"] else 0)
        # When repetitions were sent that aren't confirmed yet. Each waits until those before it are taken, which may be held back.
        self.repeats: dict[int, deque[int]] = defaultdict(deque)
        self.confirmed_within = 2 * self.way + UNDER_WAY * self.held

    def look(self, now: int) -> None:
        for outstation, heard in self.heard.items():
            is_late = now - heard > self.limit and outstation not in self.asked and outstation not in self.mute
            need(not is_late, "quiet", f"the link to outstation {outstation} is quiet since {heard}")
        for outstation, moments in self.repeats.items():
            is_late = bool(moments) and now - moments[0] > self.confirmed_within
            need(not is_late, "repeat", f"outstation {outstation} gets no confirmation of what it has repeated")

    def hear(self, now: int, outstation: int) -> None:
        self.heard[outstation] = now
        self.asked.pop(outstation, None)

    def on_opened(self, now: int, kind: int, peer: int) -> None:
        self.look(now)
        if kind == OUTSTATION:
            self.hear(now, peer)
            self.mute.discard(peer)

    def on_frame(self, now: int, outstation: int) -> None:
        self.look(now)
        if outstation in self.heard:
            self.hear(now, outstation)

    def on_octets(self, now: int, outstation: int) -> None:
        if outstation in self.heard:
            self.hear(now, outstation)

    def on_checks(self, now: int, outstation: int) -> None:
        self.look(now)
        if outstation not in self.heard:
            return
        need(outstation not in self.asked, "quiet", f"the link to outstation {outstation} is looked at twice")
        is_quiet = now - self.heard[outstation] >= QUIET
        need(is_quiet, "quiet", f"the link to outstation {outstation} is looked at, though it isn't quiet")
        self.asked[outstation] = now

    def on_mute_link(self, now: int, outstation: int) -> None:
        self.asked.pop(outstation, None)
        self.mute.add(outstation)

    def on_ended(self, now: int, kind: int, peer: int, worker: int, end: int) -> None:
        if kind != OUTSTATION:
            return
        if worker == READER and end == LINK_UNANSWERED:
            asked = self.asked.get(peer, NEVER)
            need(now - asked >= self.response, "quiet", f"the link to outstation {peer} is given up too early")
        self.forget(peer)

    def on_cut(self, now: int, outstation: int) -> None:
        self.repeats.pop(outstation, None)

    def forget(self, outstation: int) -> None:
        self.heard.pop(outstation, None)
        self.asked.pop(outstation, None)
        self.repeats.pop(outstation, None)

    def on_stopping(self, now: int) -> None:
        self.look(now)
        self.heard.clear()
        self.repeats.clear()

    def on_repeat(self, now: int, outstation: int) -> None:
        if outstation in self.heard:
            self.repeats[outstation].append(now)

    def on_again(self, now: int, outstation: int) -> None:
        if self.repeats[outstation]:
            self.repeats[outstation].popleft()

    def on_twice(self, now: int, outstation: int) -> None:
        raise Fault("twice", f"a fragment of outstation {outstation} is confirmed twice")


JUDGES: tuple[type[Judge], ...] = (Workers, News, Mirrors, Orders, ClientTimers, Writers, Answers, Rests, Links)


def judge(lines: list[str], count: int) -> None:
    """Judges the lines of a play, of which the first are as many numbers of its scenario."""
    need(len(lines) > count, "nothing", "nothing was played")
    numbers = {word: int(number) for _, word, number in (line.split() for line in lines[:count])}
    judges = [it(numbers) for it in JUDGES]
    callers: dict[str, list[Callable[..., None]]] = defaultdict(list)
    words = {name[3:] for it in judges for name in dir(it) if name.startswith("on_")}
    for word in words:
        callers[word] = [getattr(it, f"on_{word}") for it in judges if hasattr(it, f"on_{word}")]
    for line in lines[count:]:
        moment, word, *rest = line.split()
        if word in words:
            now, given = int(moment), tuple(map(int, rest))
            try:
                for call in callers[word]:
                    call(now, *given)
            except Fault as fault:
                raise Fault(fault.kind, f"at {now} ms: {fault.text}") from None
    for it in judges:
        it.end()
