"""Judges of what the gateway answers: what may come, what has to come, and that nothing comes twice."""
import re
from collections import deque
from collections.abc import Iterator
from dataclasses import dataclass
from typing import Any

from framing import spelled
from judges.reading import READ, STATION, TOTALS, answer_to, refusal_of, refusal_of_frame
from peers import ELEMENTS, REQUESTED, Difference, confirmation, each_alone
from random_steps import LARGEST, Setup

START_ACT, STOP_ACT, TEST_ACT = 0x07, 0x13, 0x43
CONFIRMS = {START_ACT: 0x0B, STOP_ACT: 0x23, TEST_ACT: 0x83}
MOST_WAITING, NUMBERS = 32, 32768
# The types of information without time, for those with it.
TIMELESS = {30: 1, 31: 3, 33: 7, 35: 11, 37: 15}
RIGHT_QUALIFIERS = {STATION: 20, TOTALS: 5}


# What an answer is known by.
Key = bytes | tuple[str, bytes]


class Found(Exception):
    """Something is wrong; `saved` is what plays it again."""

    def __init__(self, text: str, saved: dict[str, Any]) -> None:
        super().__init__(text)
        self.text, self.saved = text, saved


def with_cause(asdu: bytes, cause: int, common: bytes | None = None) -> bytes:
    """An ASDU with another cause, and with another common address if one is given."""
    return asdu[:2] + bytes([cause]) + asdu[3:4] + (common or asdu[4:6]) + asdu[6:]


def key_of(asdu: bytes) -> Key:
    """What an answer is known by: of the answer to a read the originator and the addresses, else all of it."""
    is_read = asdu[0] in ELEMENTS and asdu[2] == REQUESTED and asdu[1] == 1
    return ("read", asdu[3:9]) if is_read else bytes(asdu)


@dataclass(frozen=True)
class Wanted:
    """What an ASDU may be answered: keys, each with the keys of what follows it; and whether it may take its time."""

    keys: tuple
    session: int
    is_late: bool

    def told(self, key: Key) -> Iterator[tuple["Wanted", ...]]:
        """What is wanted behind this answer, for each way in which it is one."""
        for known, follows in self.keys:
            if known == key:
                yield (Wanted(((follows[0], follows[1:]),), self.session, self.is_late),) if follows else ()


def ways_behind(way: tuple[Wanted, ...], key: Key) -> Iterator[tuple[Wanted, ...]]:
    """What is wanted behind an answer, for each of what was wanted that it may be an answer to."""
    for wanted in dict.fromkeys(it for it in way if any(known == key for known, _ in it.keys)):
        place = way.index(wanted)
        for more in wanted.told(key):
            yield way[:place] + more + way[place + 1 :]


class Owed:
    """What the ASDUs of a client are owed, in each way in which what came may have answered them: one answer may be that
    of several."""

    def __init__(self, setup: Setup) -> None:
        self.setup, self.ways = setup, [()]

    def answers(self, asdu: bytes) -> tuple[dict[Key, list[Key]], bool]:
        """The keys of the answers to an ASDU that was taken, and whether these may take their time."""
        answer, kind, cause = answer_to(asdu, self.setup), asdu[0], asdu[2]
        if answer.cause:
            return {with_cause(asdu, cause & 0x80 | 0x40 | answer.cause): []}, False
        if kind == READ:
            return {("read", asdu[3:9]): []}, False
        asked = [asdu[4:6]]
        if asdu[4:6] == b"\xff\xff":
            asked = [it.to_bytes(2, "little") for it in self.setup.known]
        negative = {with_cause(asdu, (cause + 1) | 0x40, asked[0]): []}
        if kind in (STATION, TOTALS):
            is_right = cause == 6 and asdu[9] == RIGHT_QUALIFIERS[kind]
            first, *others = [with_cause(asdu, it, common) for common in asked for it in (cause + 1, 10)]
            return negative | ({first: others} if is_right else {}), False
        is_execute = cause == 6 and not asdu[-1] & 0x80
        return negative | {with_cause(asdu, cause + 1): [with_cause(asdu, 10)] if is_execute else []}, is_execute

    def ask(self, asdu: bytes, session: int) -> None:
        keys, is_late = self.answers(asdu)
        wanted = Wanted(tuple((key, tuple(follows)) for key, follows in keys.items()), session, is_late)
        self.ways = [(*way, wanted) for way in self.ways]

    def tell(self, asdu: bytes) -> None:
        """The client is told this."""
        key = key_of(asdu)
        self.ways = list(dict.fromkeys(it for way in self.ways for it in ways_behind(way, key)))
        if not self.ways:
            raise Difference(f"an answer that nothing asked for: {spelled(asdu)}")

    def forget(self, session: int) -> None:
        """What was asked up to a session isn't owed any more."""
        self.ways = list(dict.fromkeys(tuple(it for it in way if it.session > session) for way in self.ways))

    @property
    def most(self) -> int:
        """How many ASDUs await an answer at most."""
        return max(map(len, self.ways))

    @property
    def is_settled(self) -> bool:
        return any(all(it.is_late for it in way) for way in self.ways)


class ClientModel:
    """A client's connection as IEC 60870-5-104 has it.

    Where the order of what both sides send is known, it is exact; else the station may have sent up to k I formats
    that weren't seen yet.
    """

    def __init__(self, setup: Setup, is_exact: bool) -> None:
        self.setup, self.is_exact, self.is_started, self.session = setup, is_exact, False, 0
        self.sent = self.got = self.acknowledged = self.told_acknowledged = 0
        self.confirmations, self.owed = deque(), Owed(setup)

    def acknowledging(self, number: int) -> set[str]:
        """What becomes of an N(R)."""
        count = (number - self.acknowledged) % NUMBERS
        known = self.got - self.acknowledged
        if count <= known:
            return {"taken"}
        may_be = not self.is_exact and count <= known + self.setup.k
        return {"taken", "closed Sequence"} if may_be else {"closed Sequence"}

    def outcomes(self, apdu: bytes) -> set[str]:
        """What may become of an APDU."""
        if apdu[2] & 3 == 3:
            if apdu[2] not in CONFIRMS or len(self.confirmations) < MOST_WAITING:
                return {"taken"}
            return {"closed Flooded"} if self.is_exact else {"taken", "closed Flooded"}
        number = int.from_bytes(apdu[4:6], "little") // 2
        if apdu[2] & 1:
            return self.acknowledging(number)
        if not self.is_started:
            return {"closed NotStarted"}
        if int.from_bytes(apdu[2:4], "little") // 2 != self.sent % NUMBERS:
            return {"closed Sequence"}
        found = self.acknowledging(number)
        if "taken" not in found:
            return found
        if answer_to(apdu[6:], self.setup).closes:
            return found - {"taken"} | {"closed Malformed"}
        # Each answer takes two of the 32 places at most.
        return found | ({"closed Flooded"} if self.owed.most >= 15 else set())

    def take(self, apdu: bytes) -> None:
        """An APDU was taken, or may have been."""
        act = apdu[2]
        if act & 3 != 3:
            self.acknowledged += (int.from_bytes(apdu[4:6], "little") // 2 - self.acknowledged) % NUMBERS
        if act & 1 == 0:
            self.sent += 1
            self.owed.ask(bytes(apdu[6:]), self.session)
        elif act in CONFIRMS:
            self.confirmations.append((CONFIRMS[act], self.session))
            if act == START_ACT and not self.is_started:
                self.session += 1
            self.is_started = act == START_ACT or self.is_started and act != STOP_ACT

    def tell_u_format(self, octet: int) -> None:
        """A U format comes: TESTFR act, or the confirmation that is due."""
        if octet == TEST_ACT:
            return
        if not self.confirmations or self.confirmations[0][0] != octet:
            raise Difference(f"a confirmation that isn't due: {octet:02X}")
        _, session = self.confirmations.popleft()
        if octet == CONFIRMS[STOP_ACT]:
            self.owed.forget(session)

    def tell(self, apdu: bytes) -> list[bytes]:
        """An APDU of the station comes. Gives the observations in it, each as an ASDU of its own."""
        if len(apdu) < 6 or apdu[0] != 0x68 or apdu[1] != len(apdu) - 2 or apdu[1] > 253:
            raise Difference(f"no APDU: {spelled(apdu)}")
        if apdu[2] & 3 == 3:
            self.tell_u_format(apdu[2])
            return []
        number = int.from_bytes(apdu[4:6], "little") // 2
        acknowledged = self.told_acknowledged + (number - self.told_acknowledged) % NUMBERS
        if acknowledged > self.sent or self.is_exact and acknowledged != self.sent:
            raise Difference(f"N(R) of {spelled(apdu)}: {self.sent} were sent")
        self.told_acknowledged = acknowledged
        return [] if apdu[2] & 1 else self.tell_asdu(apdu)

    def tell_asdu(self, apdu: bytes) -> list[bytes]:
        if int.from_bytes(apdu[2:4], "little") // 2 != self.got % NUMBERS:
            raise Difference(f"N(S) of {spelled(apdu)}: wanted {self.got % NUMBERS}")
        self.got += 1
        asdu = bytes(apdu[6:])
        if asdu[0] in ELEMENTS and asdu[2] in (3, 20, 37):
            return each_alone(asdu)
        self.owed.tell(asdu)
        return []


def shown(asdu: bytes) -> tuple[tuple[int, int], tuple[int, bytes]]:
    """The common address and the object's of an observation; its type without time, and its element without time."""
    kind = TIMELESS.get(asdu[0], asdu[0])
    place = int.from_bytes(asdu[4:6], "little"), int.from_bytes(asdu[6:9], "little")
    return place, (kind, bytes(asdu[9 : 9 + ELEMENTS[kind]]))


# ---- requests of the master

POLLS = [b"\x01" + bytes.fromhex("3C 02 06 3C 03 06 3C 04 06" + it) for it in ("", "3C 01 06")]
SWITCHES = [function + bytes.fromhex("3C 02 06 3C 03 06 3C 04 06") for function in (b"\x14", b"\x15")]
PLAIN_REQUESTS = [*POLLS, *SWITCHES, b"\x18", bytes.fromhex("02 50 01 00 07 07 00")]
TIME_FRONT = bytes.fromhex("02 32 03 07 01")
# The header of what operates an output, and how long such a fragment is.
ORDER_FRONTS = {bytes.fromhex("0C 01 28 01 00"): 20, bytes.fromhex("29 02 28 01 00"): 12}


def is_request(octets: bytes) -> bool:
    """Whether a fragment is one that a master of this gateway asks by, behind its control octet."""
    behind = octets[1:]
    if octets[0] & 0xF0 != 0xC0:
        return False
    is_order = behind[0] in (3, 4, 5) and ORDER_FRONTS.get(behind[1:6]) == len(octets)
    return behind in PLAIN_REQUESTS or behind[:5] == TIME_FRONT and len(behind) == 11 or is_order


# ---- lines of a replay

PLACED = {b"up": 1, b"down": 1, b"open": 1, b"close": 1, b"pump": 1, b"poll": 2}
HEX = re.compile(rb"[0-9A-Fa-f]{2}(?: [0-9A-Fa-f]{2}){0,2047}")
LONGEST_STEP, CLIENTS = 8191, 8


def number_in(word: bytes, largest: int = LARGEST) -> int | None:
    """The number that a word is, if it is one."""
    digits = word.lstrip(b"0")
    is_number = re.fullmatch(rb"[0-9]+", word) and len(digits) <= 20
    return int(digits or b"0") if is_number and int(digits or b"0") <= largest else None


def octets_in(text: bytes) -> bytes | None:
    """The octets that a text is, if it is such a text."""
    return bytes.fromhex(text.decode()) if HEX.fullmatch(text) else None


def instruction_in(line: bytes) -> tuple[bytes, int | None, bytes | None] | None:
    """The verb, the peer and the octets of a line, if it is one."""
    verb, *words = line.split(b" ")
    if len(line) > LONGEST_STEP or not words:
        return None
    if verb == b"tick":
        return (verb, None, None) if len(words) == 1 and number_in(words[0]) is not None else None
    place = number_in(words[0], 255)
    if verb == b"queue":
        return (verb, place, None) if len(words) == 1 and place is not None else None
    if verb in (b"frag", b"frame"):
        octets = octets_in(b" ".join(words[2:])) if len(words) > 2 else None
        is_right = place is not None and octets is not None and number_in(words[1]) is not None
        return (verb, place, octets) if is_right else None
    is_right = len(words) == PLACED.get(verb, -2) + 1 and place is not None
    return (verb, place, None) if is_right and all(number_in(it) is not None for it in words[1:]) else None


class ReplayJudge:
    """What each line of a replay may be answered."""

    def __init__(self, setup: Setup) -> None:
        self.setup, self.up, self.clients, self.last = setup, set(), {}, {}

    def judge(self, line: bytes, reply: str) -> None:
        """Judges the answer to a line that is an instruction."""
        verb, place, octets = instruction_in(line)
        wanted = self.refusal(verb, octets) or self.fault(verb, place)
        if wanted:
            self.wants(reply == wanted, line, reply, wanted)
            return
        try:
            getattr(self, f"judge_{verb.decode()}")(line, place, octets, reply)
        except ValueError:
            self.wants(False, line, reply, "an answer")

    def wants(self, is_right: bool, line: bytes, reply: str, wanted: object) -> None:
        if not is_right:
            raise Difference(f"{line.decode()[:200]!r} is answered {reply[:200]!r}, wanted {wanted}")

    def refusal(self, verb: bytes, octets: bytes | None) -> str | None:
        """The answer to octets that make no step."""
        if verb == b"frag":
            why = refusal_of(octets)
            return f"refused {why}" if why else None
        why = refusal_of_frame(octets) if verb == b"frame" else None
        return f"refused apci {why}" if why else None

    def fault(self, verb: bytes, place: int | None) -> str | None:
        """The fault of a step for its peer."""
        if verb in (b"tick", b"queue"):
            return None
        is_client = verb in (b"open", b"close", b"frame", b"pump")
        if place >= (CLIENTS if is_client else self.setup.outstations):
            return "fault 2 NoClient" if is_client else "fault 1 NoOutstation"
        is_up = place in (self.clients if is_client else self.up)
        if verb in (b"open", b"up"):
            return "fault 4 AlreadyUp" if is_up else None
        return None if is_up else "fault 3 NotUp"

    def judge_up(self, line: bytes, place: int, _octets: bytes | None, reply: str) -> None:
        self.wants(reply == "ok", line, reply, "ok")
        self.up.add(place)
        self.last.pop(place, None)

    def judge_down(self, line: bytes, place: int, _octets: bytes | None, reply: str) -> None:
        self.wants(reply == "ok", line, reply, "ok")
        self.up.remove(place)

    def judge_frag(self, line: bytes, place: int, octets: bytes, reply: str) -> None:
        """An unsolicited response is taken, or is the same again; a solicited one may also mean nothing."""
        confirm = f" confirm {spelled(confirmation(octets))}" if octets[0] & 0x20 else ""
        if octets[1] == 130:
            word = "repeated" if self.last.get(place) == octets else "accepted"
            self.last[place] = octets
            self.wants(reply == word + confirm, line, reply, word + confirm)
            return
        end = " end" if octets[0] & 0x40 else ""
        wanted = {f"accepted{confirm}{end}"} | {f"ignored {it}" for it in ("NoRequest", "WrongSequence", "WrongFirst")}
        self.wants(reply in wanted, line, reply, wanted)

    def judge_poll(self, line: bytes, _place: int, _octets: bytes | None, reply: str) -> None:
        word, _, rest = reply.partition(" ")
        is_right = reply == "nothing" or word == "request" and is_request(bytes.fromhex(rest))
        self.wants(is_right, line, reply, "a request or nothing")

    def judge_open(self, line: bytes, place: int, _octets: bytes | None, reply: str) -> None:
        self.wants(reply == "ok", line, reply, "ok")
        self.clients[place] = ClientModel(self.setup, True)

    def judge_close(self, line: bytes, place: int, _octets: bytes | None, reply: str) -> None:
        self.wants(reply == "ok", line, reply, "ok")
        del self.clients[place]

    def judge_frame(self, line: bytes, place: int, octets: bytes, reply: str) -> None:
        client = self.clients[place]
        wanted = client.outcomes(octets)
        self.wants(reply in wanted, line, reply, wanted)
        if reply == "taken":
            client.take(octets)
        else:
            del self.clients[place]

    def judge_pump(self, line: bytes, place: int, _octets: bytes | None, reply: str) -> None:
        word, _, rest = reply.partition(" ")
        self.wants(reply == "nothing" or word == "apdu", line, reply, "an APDU or nothing")
        if word == "apdu":
            self.clients[place].tell(bytes.fromhex(rest))

    def judge_tick(self, line: bytes, _place: int, _octets: bytes | None, reply: str) -> None:
        word, *closed = reply.split(" ")
        closed = [int(it) for it in closed]
        is_right = word == "ticked" and closed == sorted(set(closed)) and all(it in self.clients for it in closed)
        self.wants(is_right, line, reply, "ticked")
        for place in closed:
            del self.clients[place]

    def judge_queue(self, line: bytes, _place: int, _octets: bytes | None, reply: str) -> None:
        self.wants(bool(re.fullmatch(r"queued \d+ dropped \d+", reply)), line, reply, "queued N dropped N")


def judge_replay(setup: Setup, lines: list[bytes], output: str, status: int) -> None:
    """Each line has one answer, up to the first that is no instruction."""
    judge, replies, was_refused = ReplayJudge(setup), output.split("\n"), False
    if replies.pop():
        raise Difference(f"the output's last line has no end: {output[-100:]!r}")
    replies.reverse()
    for number, line in enumerate(lines, 1):
        if not line:
            continue
        if not replies:
            raise Difference(f"line {number} isn't answered: {line[:200]!r}")
        reply = replies.pop()
        if not instruction_in(line):
            judge.wants(reply == f"refused line {number}", line, reply, f"refused line {number}")
            was_refused = True
            break
        judge.judge(line, reply)
        was_refused |= reply.startswith("refused")
    if replies or status != was_refused:
        raise Difference(f"wanted the end and status {was_refused:d}, got status {status} and {replies[-1:]}")
