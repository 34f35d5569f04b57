"""The judge of what `crates/sim_places` plays: it reads the lines that it writes, and shares no code with it.

A line has the virtual time in milliseconds, a word and numbers. The first lines are the numbers of the scenario. The rules are those of
`docs/IEC104-INTEROPERABILITY.md` ("Connections"), `docs/OPERATE.md` (`--sessions`, `--until-eof`) and `docs/SECURITY.md` (`--allow`).
"""
from dataclasses import dataclass

from judges.fault import Fault, need

# How many slots there are, and how many clients may wait for one.
SLOTS, MOST_WAITING = 8, 8
# The milliseconds from one look for a slot to the next while clients wait, and those in which a client may be about to start data
# transfer, or its confirmation on the way.
LOOK, GRACE = 100, 1000
# What is awaited behind a turn: the next client, for long or not; a slot; nothing.
CLIENT, CLIENT_OR_TIME, TIME, NOTHING = range(4)
# Why a connection ended.
LEFT, EXPIRED, GAVE_WAY, GATEWAY_ENDS = range(4)


@dataclass
class Client:
    """A client, and its connection."""

    number: int
    address: int
    # Another one was made to give way to it.
    has_way: bool = False
    # When its slot was given to it; when it was heard last; when it was sent a TESTFR act that it hasn't confirmed.
    given: int = 0
    since: int = 0
    heard: int = 0
    tested: int | None = None
    has_begun: bool = False
    transfers: bool = False
    # It was made to leave, t1 closed it, its workers met its end, the gateway knows of it no more.
    leaves: bool = False
    has_expired: bool = False
    has_ended: bool = False
    is_lost: bool = False
    # It was shut since all were to be.
    is_dismissed: bool = False

    def keeps(self, now: int, t3: int) -> str | None:
        """Why it doesn't have to give way, if it doesn't."""
        if self.leaves or self.is_lost:
            return "has to leave already"
        if self.transfers:
            return "transfers data"
        if now - self.since < GRACE:
            return "connected or stopped less than a second ago"
        if self.tested is not None and now - self.tested >= GRACE:
            return None
        return None if now - self.heard >= t3 + GRACE else "doesn't seem to be dead"


class Places:
    """Who waits, who has which slot, and who may have to give way."""

    def __init__(self, numbers: dict[str, int], given: list[int]) -> None:
        self.hold, self.t3 = numbers["hold_ms"], numbers["t3_ms"]
        self.late = LOOK + self.hold
        self.sessions = numbers["sessions"] or None
        self.end_at = 1000 * numbers["end_s"] or None
        addresses = max(1, min(8, numbers["addresses"]))
        self.allowed = max(1, addresses - numbers["foreign"]) if numbers["foreign"] else addresses
        # The clients to which slots are given, in the order in which these are.
        self.given = given
        self.slots: list[Client | None] = [None] * SLOTS
        self.waiting: list[Client] = []
        # Those that nobody has looked at, and since when each is there.
        self.backlog: list[tuple[int, Client]] = []
        self.gone: set[int] = set()
        self.taken = 0
        self.awaited = TIME
        self.turned = 0
        self.is_turning = False
        self.is_closed = self.is_stopping = False
        self.ended: int | None = None
        self.dismissed: int | None = None
        self.has_remaining = False

    def client(self, slot: int) -> Client:
        client = self.slots[slot]
        if client is None:
            raise Fault("nobody", f"something is done at slot {slot}, which nobody has")
        return client

    def tick(self, now: int) -> None:
        """What has to have come by now."""
        if not self.is_closed:
            looks = self.awaited != CLIENT or self.end_at is not None
            need(not looks or now - self.turned <= self.late, "look", f"nobody looks for a slot since {self.turned}")
            if self.backlog and self.awaited in (CLIENT, CLIENT_OR_TIME):
                since, client = self.backlog[0]
                need(now - max(since, self.turned) <= self.hold, "accept", f"client {client.number} isn't accepted, though one may be")
        for slot, client in enumerate(self.slots):
            if client is not None and not client.has_begun:
                need(now - client.given <= self.hold, "serve", f"the workers of slot {slot} don't serve whom it was given to")
            if client is not None and self.dismissed is not None and now > self.dismissed:
                need(client.is_dismissed, "end", f"slot {slot} isn't shut at the end")

    def on_came(self, now: int, number: int, centre: int, address: int) -> None:
        self.backlog.append((now, Client(number, address)))

    def leave_backlog(self, number: int) -> Client:
        need(bool(self.backlog) and self.backlog[0][1].number == number, "order", f"client {number} isn't the next one")
        need(self.awaited in (CLIENT, CLIENT_OR_TIME), "accept", f"client {number} is accepted, though none may be")
        return self.backlog.pop(0)[1]

    def on_taken(self, now: int, number: int) -> None:
        client = self.leave_backlog(number)
        need(client.address < self.allowed, "allow", f"client {number} isn't allowed, and is taken")
        need(len(self.waiting) < MOST_WAITING, "waiting", f"client {number} is one too many that wait")
        self.taken += 1
        need(self.sessions is None or self.taken <= self.sessions, "sessions", f"client {number} is one more than may come")
        # Whoever connects while the end isn't seen yet is taken, and shut then.
        need(self.ended is None or now - self.ended <= self.late, "end", f"client {number} is taken behind the end of input")
        self.waiting.append(client)

    def on_refused(self, now: int, number: int) -> None:
        client = self.leave_backlog(number)
        need(client.address >= self.allowed, "allow", f"client {number} is allowed, and is refused")

    def on_turn(self, now: int) -> None:
        need(not self.is_closed, "over", "accepting goes on after its end")
        self.is_turning = True

    def on_given(self, now: int, slot: int) -> None:
        need(self.is_turning, "turn", f"slot {slot} is given by nobody")
        need(self.slots[slot] is None, "free", f"slot {slot} is given, and isn't free")
        free = self.slots.index(None)
        need(free == slot, "lowest", f"slot {slot} is given, though slot {free} is free")
        number = self.given.pop(0)
        need(number >= 0, "serve", f"whoever slot {slot} is given to is never served")
        need(bool(self.waiting), "waiting", f"slot {slot} is given, and nobody waits")
        first = next((it for it in self.waiting if it.has_way), self.waiting[0])
        need(any(it.number == number for it in self.waiting), "waiting", f"slot {slot} is given to client {number}, which doesn't wait")
        need(first.number == number, "order", f"slot {slot} is given to client {number}, though client {first.number} is next")
        self.waiting.remove(first)
        first.given = first.since = first.heard = now
        self.slots[slot] = first

    def candidates(self, now: int, address: int) -> list[Client]:
        """Those of an address that may have to give way, the one that connected first in front."""
        there = (it for it in self.slots if it is not None and it.address == address and it.keeps(now, self.t3) is None)
        return sorted(there, key=number_of)

    def on_shut(self, now: int, number: int) -> None:
        client = next((it for it in self.slots if it is not None and it.number == number), None)
        need(client is not None, "shut", f"client {number} is shut, which has no slot")
        if self.dismissed is not None:
            client.is_dismissed = True
            return
        need(self.is_turning, "shut", f"client {number} is shut by nobody")
        why = client.keeps(now, self.t3)
        need(why is None, "way", f"client {number} has to give way, and {why}")
        need(None not in self.slots, "way", f"client {number} has to give way, though a slot is free")
        served = next((it for it in self.waiting if it.address == client.address and not it.has_way), None)
        need(served is not None, "way", f"client {number} has to give way, and nobody of its address waits for that")
        first = self.candidates(now, client.address)[0]
        need(first is client, "way", f"client {number} has to give way, though client {first.number} connected before")
        client.leaves = served.has_way = True

    def on_turned(self, now: int, awaited: int) -> None:
        self.is_turning = False
        self.turned, self.awaited = now, awaited
        if None in self.slots:
            need(not self.waiting, "look", f"client {number_of_first(self.waiting)} waits, though a slot is free")
        for it in self.waiting:
            if not it.has_way:
                dead = self.candidates(now, it.address)
                need(not dead, "way", f"client {it.number} waits, and client {number_of_first(dead)} doesn't give way")
        are_all = self.taken == self.sessions
        if self.ended is not None or (are_all and not self.waiting):
            need(awaited == NOTHING, "over", "accepting goes on, though nobody may come any more")
        elif are_all or len(self.waiting) == MOST_WAITING:
            need(awaited == TIME, "accept", f"{len(self.waiting)} wait, {self.taken} have come, and accepting awaits {awaited}")
        else:
            need(awaited == (CLIENT_OR_TIME if self.waiting else CLIENT), "accept", f"{len(self.waiting)} wait, and accepting awaits {awaited}")
        if awaited == NOTHING:
            self.is_closed = True
            self.waiting.clear()

    def on_begins(self, now: int, slot: int, number: int) -> None:
        client = self.slots[slot]
        need(client is not None and not client.has_begun, "serve", f"slot {slot} serves a client that it wasn't given to")
        need(client.number == number, "serve", f"slot {slot} serves client {number}, and was given to client {client.number}")
        client.has_begun = True

    def on_asks(self, now: int, slot: int) -> None:
        self.client(slot).transfers = True

    def on_stopped(self, now: int, slot: int) -> None:
        client = self.client(slot)
        if client.transfers:
            client.transfers, client.since = False, now

    def on_heard(self, now: int, slot: int) -> None:
        self.client(slot).heard = now

    def on_confirmed(self, now: int, slot: int) -> None:
        client = self.client(slot)
        client.heard, client.tested = now, None

    def on_tested(self, now: int, slot: int) -> None:
        client = self.client(slot)
        client.tested = now if client.tested is None else client.tested

    def on_expired(self, now: int, slot: int) -> None:
        self.client(slot).has_expired = True

    def on_left(self, now: int, number: int) -> None:
        self.gone.add(number)

    def on_ended(self, now: int, slot: int) -> None:
        client = self.client(slot)
        is_shut = client.leaves or client.is_dismissed
        has_gone = client.number in self.gone or self.is_stopping
        need(is_shut or has_gone or client.has_expired, "closed", f"client {client.number} is closed, and nobody knows why")
        client.has_ended = True

    def on_lost(self, now: int, slot: int, why: int) -> None:
        client = self.client(slot)
        need(client.has_ended, "lost", f"client {client.number} is lost before its end")
        if self.dismissed is not None:
            known = GATEWAY_ENDS
        elif client.has_expired:
            known = EXPIRED
        else:
            known = GAVE_WAY if client.leaves else LEFT
        need(why == known, "lost", f"client {client.number} is lost by cause {why}, not {known}")
        client.is_lost = True

    def on_freed(self, now: int, slot: int) -> None:
        client = self.client(slot)
        need(client.is_lost, "free", f"slot {slot} is free before its workers are back")
        self.slots[slot] = None

    def on_input_ended(self, now: int) -> None:
        need(self.end_at is not None and now >= self.end_at, "end", "input has ended before its end")
        self.ended = now

    def on_dismissed(self, now: int) -> None:
        need(self.ended is not None and self.is_closed, "end", "all are shut, though input hasn't ended")
        self.dismissed = now

    def on_stopping(self, now: int) -> None:
        self.is_stopping = True

    def on_livelock(self, now: int) -> None:
        raise Fault("livelock", "something is done again and again, and nothing comes of it")

    def on_remaining(self, now: int, busy: int, held: int, backlog: int) -> None:
        self.has_remaining = True
        need(not self.waiting, "left", f"client {number_of_first(self.waiting)} waits at the end")
        need(busy == 0, "left", f"{busy} slots have clients at the end")
        need(held == 0, "left", f"{held} connections have handles at the end")
        need(self.is_closed or backlog == 0, "left", f"{backlog} clients weren't looked at by the end")

    def end(self) -> None:
        need(self.has_remaining, "left", "the play has no end")
        need(all(it is None for it in self.slots), "free", "a slot isn't free at the end")


def number_of(client: Client) -> int:
    return client.number


def number_of_first(clients: list[Client]) -> int | None:
    return clients[0].number if clients else None


def given_in(lines: list[list[str]]) -> list[int]:
    """The clients to which slots are given, in the order of these lines: the next that each slot serves; -1 if it serves none."""
    given: list[int] = []
    awaited: dict[int, int] = {}
    for _, word, *rest in lines:
        if word == "given":
            awaited[int(rest[0])] = len(given)
            given.append(-1)
        elif word == "begins" and int(rest[0]) in awaited:
            given[awaited.pop(int(rest[0]))] = int(rest[1])
    return given


def judge(lines: list[str], count: int) -> None:
    """Judges the lines of a play, of which the first are as many numbers of its scenario."""
    need(len(lines) > count, "nothing", "nothing was played")
    numbers = {word: int(number) for _, word, number in (line.split() for line in lines[:count])}
    words = [line.split() for line in lines[count:]]
    places = Places(numbers, given_in(words))
    for moment, word, *rest in words:
        now, call = int(moment), getattr(places, f"on_{word}", None)
        try:
            places.tick(now)
            if call is not None:
                call(now, *map(int, rest))
        except Fault as fault:
            raise Fault(fault.kind, f"at {now} ms: {fault.text}") from None
    places.end()
