"""What octets of both protocols mean, read apart from the gateway, so that what it answers can be judged."""
from collections import namedtuple
from collections.abc import Iterator
from dataclasses import dataclass

from framing import BLOCK, MASTER, crc
from random_steps import COMMANDS, NO_POINTS, OBJECTS, PACKED, Setup

# ---- the link and the transport function of DNP3 (IEEE Std 1815, clauses 9 and 8)

LONGEST_FRAME, FRAGMENT_LIMIT = 292, 2048
# The functions of frames, and the CONTROL octets of what a master's link answers.
RESET, TEST, CONFIRMED, UNCONFIRMED, ASK_STATUS = 0, 2, 3, 4, 9
ACK, NACK, LINK_STATUS, NOT_SUPPORTED = 0x80, 0x81, 0x8B, 0x8F

Frame = namedtuple("Frame", "control destination source user")


def whole_length(length: int) -> int:
    """How many octets a frame with so many octets of user data has."""
    return 10 + length + 2 * ((length + BLOCK - 1) // BLOCK)


def user_of(octets: bytes, length: int) -> bytes | None:
    """The user data behind a frame's header block, unless a data block's CRC is wrong."""
    user = b""
    for begin in range(0, length, BLOCK):
        size = min(BLOCK, length - begin)
        place = 10 + begin // BLOCK * (BLOCK + 2)
        block = octets[place : place + size]
        if octets[place + size : place + size + 2] != crc(block):
            return None
        user += block
    return user


def frame_in(octets: bytes, user: bytes) -> Frame:
    """The frame with this header block."""
    destination, source = (int.from_bytes(octets[it : it + 2], "little") for it in (4, 6))
    return Frame(octets[3], destination, source, user)


def link_events(octets: bytes) -> Iterator[tuple[int, Frame | None]]:
    """The events of a link, each behind the place where it ends: a frame, or nothing for an octet that begins none."""
    at = 0
    while at < len(octets):
        rest = octets[at : at + LONGEST_FRAME]
        user = None
        if b"\x05\x64".startswith(rest[:2]) and not (len(rest) >= 3 and rest[2] < 5):
            if len(rest) < 10:
                return
            if rest[8:10] == crc(rest[:8]):
                length = rest[2] - 5
                if len(rest) < whole_length(length):
                    return
                user = user_of(rest, length)
        at += 1 if user is None else whole_length(len(user))
        yield at, None if user is None else frame_in(rest, user)


class Series:
    """The fragments of segments that come one after another."""

    def __init__(self) -> None:
        self.octets, self.number = None, 0

    def take(self, segment: bytes) -> bytes | None:
        """The fragment that ends with a segment, if one does. A header alone changes nothing."""
        if len(segment) < 2:
            return None
        fir, fin, number = segment[0] & 0x40, segment[0] & 0x80, segment[0] & 0x3F
        if fir:
            self.octets = b""
        elif self.octets is None or number != self.number:
            self.octets = None
            return None
        octets, self.number = self.octets + segment[1:], (number + 1) % 64
        self.octets = None if fin or len(octets) > FRAGMENT_LIMIT else octets
        return octets if fin and len(octets) <= FRAGMENT_LIMIT else None


class Receiver:
    """What a master's end of a link owes to the octets of its outstation, and the fragments that these carry."""

    def __init__(self, peer: int, own: int = MASTER) -> None:
        self.peer, self.own, self.expected, self.rest, self.skipped, self.series = peer, own, None, b"", 0, Series()

    def take_frame(self, frame: Frame) -> tuple[int | None, bool]:
        """The CONTROL octet of the answer, if there is one, and whether the user data is handed on."""
        if (frame.destination, frame.source) != (self.own, self.peer) or frame.control & 0xC0 != 0x40:
            return None, False
        function, count_bit = frame.control & 0x0F, bool(frame.control & 0x20)
        if function == RESET:
            self.expected = True
            return ACK, False
        if function in (TEST, CONFIRMED):
            if self.expected is None:
                return NACK, False
            is_new = count_bit == self.expected
            self.expected ^= is_new
            return ACK, is_new and function == CONFIRMED
        return {UNCONFIRMED: (None, True), ASK_STATUS: (LINK_STATUS, False)}.get(function, (NOT_SUPPORTED, False))

    def feed(self, octets: bytes) -> Iterator[int | bytes]:
        """What the next octets of the stream bring, in order: answers of the link by their CONTROL, and fragments."""
        octets, end = self.rest + octets, 0
        for end, frame in link_events(octets):
            self.skipped += frame is None
            if frame:
                answer, is_handed_on = self.take_frame(frame)
                if answer is not None:
                    yield answer
                fragment = self.series.take(frame.user) if is_handed_on else None
                if fragment is not None:
                    yield fragment
        self.rest = octets[end:]


# ---- responses (clause 4, Annex A)

MOST_HEADERS = 512
SIZES = {key: length for kind in OBJECTS.values() for key, length in kind.items()} | NO_POINTS
BITS = {(group, variation): bits for group, variation, bits in PACKED.values()}
KINDS = {key: kind for kind, keys in OBJECTS.items() for key in keys}
KINDS |= {(group, variation): kind for kind, (group, variation, _) in PACKED.items()}
EVENTS = (2, 4, 11, 22, 32)
ECHOES, TIMES = ((12, 1), (41, 2)), ((51, 1), (51, 2))
# How many octets the two numbers of a range have, or a count; and an index before each object.
RANGES, COUNTS = {0x00: 1, 0x01: 2}, {0x07: 1, 0x08: 2, 0x17: 1, 0x18: 2, 0x27: 1, 0x28: 2}
INDEXES = {0x17: 1, 0x18: 1, 0x27: 2, 0x28: 2}

Objects = namedtuple("Objects", "key indexes")


class Refused(Exception):
    """A fragment is refused for this."""


def size_of(key: tuple[int, int]) -> int | None:
    """How many bits an object has, unless nobody knows it."""
    if key in BITS:
        return BITS[key]
    if key[0] in (110, 111) and key[1]:
        return 8 * key[1]
    return 48 if key in TIMES else 8 * SIZES[key] if key in SIZES else None


def may_stand(key: tuple[int, int], qualifier: int) -> bool:
    """Whether objects may stand under a qualifier."""
    if key in BITS:
        return qualifier in RANGES
    if key in TIMES:
        return qualifier in (0x07, 0x08)
    return qualifier in INDEXES or qualifier in RANGES and key not in ECHOES


def range_at(part: bytes, at: int, place: int) -> tuple[int, int, int]:
    """The first index and the count of a header whose qualifier stands before a place, and where its objects begin."""
    qualifier = part[at - 1]
    numbers, size = (2, RANGES[qualifier]) if qualifier in RANGES else (1, COUNTS[qualifier])
    if len(part) < at + numbers * size:
        raise Refused(f"3 Object 3 ShortRange at {place}")
    first, last = (int.from_bytes(part[it : it + size], "little") for it in (at, at + (numbers - 1) * size))
    if qualifier not in RANGES:
        return 0, first, at + size
    if last < first:
        raise Refused(f"3 Object 4 StopBeforeStart at {place}")
    return first, last - first + 1, at + 2 * size


def objects_at(part: bytes, place: int) -> tuple[Objects, int]:
    """The objects of the header at a place, and where the next one begins."""
    if len(part) < place + 3:
        raise Refused(f"3 Object 3 ShortRange at {place}")
    key, qualifier = tuple(part[place : place + 2]), part[place + 2]
    bits = size_of(key)
    if bits is None:
        raise Refused(f"3 Object 1 UnknownObject at {place}")
    if not may_stand(key, qualifier):
        raise Refused(f"3 Object 2 UnknownQualifier at {place}")
    first, count, begin = range_at(part, place + 3, place)
    prefix = INDEXES.get(qualifier, 0)
    end = begin + (count * (8 * prefix + bits) + 7) // 8
    if len(part) < end:
        raise Refused(f"3 Object 5 ShortData at {place}")
    if not prefix:
        return Objects(key, range(first, first + count)), end
    places = range(begin, end, prefix + bits // 8)
    return Objects(key, [int.from_bytes(part[it : it + prefix], "little") for it in places]), end


def read_response(fragment: bytes) -> list[Objects]:
    """The objects of a response, header by header, or why it is refused."""
    if len(fragment) < 4:
        raise Refused("1 Short")
    if fragment[1] not in (129, 130):
        raise Refused("2 NotResponse")
    found, place, part = [], 0, fragment[4:]
    while place < len(part):
        if len(found) == MOST_HEADERS:
            raise Refused(f"3 Object 6 TooMany at {place}")
        objects, place = objects_at(part, place)
        found.append(objects)
    return found


def refusal_of(fragment: bytes) -> str | None:
    """Why a fragment is refused, if it is."""
    try:
        read_response(fragment)
    except Refused as why:
        return str(why)
    return None


# ---- APDUs (IEC 60870-5-104, clause 5)

SIGNALS = (0x07, 0x0B, 0x13, 0x23, 0x43, 0x83)
# Of each type that is known, how long its ASDU is, and the causes that it may have.
KNOWN = {45: (10, (6, 8)), 46: (10, (6, 8)), 49: (12, (6, 8)), 100: (10, (6, 8)), 101: (10, (6, 8)), 102: (9, (5,))}
STATION, TOTALS, READ = 100, 101, 102


def is_right_control(apdu: bytes) -> bool:
    """Whether the control field of an APDU is that of a format."""
    if apdu[4] & 1:
        return False
    if apdu[2] & 1 == 0:
        return True
    return len(apdu) == 6 and (apdu[2:4] == b"\x01\x00" or apdu[2] in SIGNALS and apdu[3:6] == bytes(3))


def apdu_events(octets: bytes) -> Iterator[tuple[int, bytes | str]]:
    """The APDUs of a stream, each behind the place where it ends, and the fault that ends them, by its name."""
    at = 0
    while at < len(octets):
        rest = octets[at : at + 255]
        if rest[0] != 0x68:
            yield at, "1 Start"
            return
        if len(rest) < 2 or 4 <= rest[1] <= 253 and len(rest) < 2 + rest[1]:
            return
        if not 4 <= rest[1] <= 253:
            yield at, "2 Length"
            return
        apdu = rest[: 2 + rest[1]]
        if not is_right_control(apdu):
            yield at, "3 Control"
            return
        at += len(apdu)
        yield at, apdu


def refusal_of_frame(octets: bytes) -> str | None:
    """Why octets aren't one APDU alone, if they aren't."""
    end, found = next(apdu_events(octets), (0, "0 Partial"))
    if isinstance(found, str):
        return found
    return None if end == len(octets) else "0 Partial"


@dataclass(frozen=True)
class Answer:
    """What becomes of an ASDU: it closes the connection, or comes back with a cause, or neither."""

    closes: bool = False
    cause: int = 0

    @property
    def is_right(self) -> bool:
        return not self.closes and not self.cause


def object_cause(kind: int, common: int, address: int, setup: Setup) -> int:
    """The cause with which an ASDU comes back for its object's addresses, if it does."""
    if kind in (STATION, TOTALS):
        return 47 if address else 0
    place = common, address
    if kind == READ:
        points = [it for it in setup.points if it[1] != "counter"]
        return 0 if any((setup.commons[it[0]], it[3]) == place for it in points) else 47
    controls = [it for it in setup.controls if COMMANDS[it[1]][0] == kind]
    return 0 if any((setup.commons[it[0]], it[2]) == place for it in controls) else 47


def answer_to(asdu: bytes, setup: Setup) -> Answer:
    """What becomes of an ASDU of a client that has started, apart from how many answers wait."""
    if len(asdu) < 6:
        return Answer(closes=True)
    if asdu[0] not in KNOWN:
        return Answer(cause=44)
    length, causes = KNOWN[asdu[0]]
    if asdu[1] != 1 or len(asdu) != length:
        return Answer(closes=True)
    if asdu[2] not in causes:
        return Answer(cause=45)
    common = int.from_bytes(asdu[4:6], "little")
    if common not in setup.known and not (common == 65535 and asdu[0] in (STATION, TOTALS)):
        return Answer(cause=46)
    return Answer(cause=object_cause(asdu[0], common, int.from_bytes(asdu[6:9], "little"), setup))
