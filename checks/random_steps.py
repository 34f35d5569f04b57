"""Random settings, fragments of responses, ASDUs, and replays, of which most are right and do something."""
import json
import random
from collections.abc import Callable, Iterable, Iterator, Sequence
from dataclasses import dataclass, field
from typing import Any

from framing import i_format, s_format, spelled, u_format

LARGEST = 2**64 - 1
# 22:13:20 UTC on 14 November 2023.
WALL = 1_700_000_000_000


def low_first(number: int, count: int) -> bytes:
    """The low octets of a number, the lowest first."""
    return (number % 256**count).to_bytes(count, "little")


# ---- settings

SHOWN = {
    "binary": ["single"],
    "output": ["single"],
    "double": ["double"],
    "counter": ["total"],
    "analog": ["scaled", "scaled", "word"],
}


@dataclass
class Setup:
    """Settings, and what lines have to know of them: the common address of each outstation, of a station without one its
    own; points as outstation, kind, index and address, controls as outstation, show and address, and periods."""

    text: str
    commons: list
    k: int
    outstations: int
    points: list
    controls: list
    periods: list

    @property
    def known(self) -> list[int]:
        """The common addresses that clients may use, in order."""
        return list(dict.fromkeys(self.commons))

    def indexes(self, outstation: int, kind: str) -> list[int]:
        return [it[2] for it in self.points if it[:2] == (outstation, kind)]


def table(head: str, **keys: object) -> str:
    """A table of TOML; a key without a value is left out."""
    lines = [f"{key} = {json.dumps(value)}" for key, value in keys.items() if value is not None]
    return "".join(f"{it}\n" for it in [head, *lines])


def random_factor(rng: random.Random) -> int | None:
    return rng.choice([None, 1, 2, 10, 3, 32767])


def random_point(rng: random.Random, outstation: int, kind: str, index: int, address: int) -> str:
    """The table of a point."""
    show = rng.choice(SHOWN[kind])
    keys = {"outstation": outstation, "kind": kind, "index": index, "address": address, "show": show}
    if show == "scaled":
        keys |= {"num": random_factor(rng), "den": random_factor(rng)}
    return table("[[point]]", **keys)


def random_control(rng: random.Random, outstation: int, show: str, address: int) -> str:
    """The table of a control."""
    keys = {"outstation": outstation, "show": show, "index": rng.choice([0, 1, 3, 300]), "address": address}
    keys |= {"select": rng.choice([True, False]), "mode": rng.choice(["direct", "sbo"])}
    if show == "setpoint":
        keys |= {"num": random_factor(rng), "den": random_factor(rng)}
    else:
        keys |= {"rest": rng.choice([None, "latch", "short"]), "short_ms": rng.choice([None, 1, 70000])}
    return table("[[control]]", **keys)


RULES = ["CET-1CEST,M3.5.0,M10.5.0/3", "EST5EDT,M3.2.0,M11.1.0", "IST-1GMT0,M10.5.0,M3.5.0/1"]


def random_station(rng: random.Random, common: int, k: int) -> tuple[str, list[int]]:
    """The table of the station, and its periods."""
    t1 = rng.choice([40, 1000, 15000, 15000, 255000])
    t2, t3 = rng.choice([1, t1 // 2, t1 * 2 // 3, t1 - 1]), rng.choice([30, 2000, 20000, 20000, 255000])
    keys = {"k": k, "w": rng.randint(1, min(k, 8)), "t1_ms": t1, "t2_ms": t2, "t3_ms": t3}
    keys |= {"queue": rng.choice([1, 2, 3, 10, 1000]), "offset_minutes": rng.choice([0, 0, 60, -300, 840, -840])}
    keys |= {"rule": rng.choice([None, None, *RULES])}
    select = rng.choice([1, 30, 10000, 10000, 600000])
    return table("[station]", common_address=common, **keys, select_ms=select), [t1, t2, t3, select]


def random_outstation(rng: random.Random, address: int, common: int | None = None) -> tuple[str, list[int]]:
    """The table of an outstation, and its periods."""
    poll, awaited = rng.choice([1, 100, 2000, 2000, 60000]), rng.choice([20, 1000, 5000, 5000])
    integrity = rng.choice([None, 0, 1, 3000, 600000])
    keys = {"poll_ms": poll, "integrity_ms": integrity, "response_ms": awaited}
    keys |= {"unsolicited": rng.choice([True, False]), "lan_time": rng.choice([True, False])}
    return table("[[outstation]]", address=address, **keys, common_address=common), [poll, awaited, integrity or 1]


def random_points(rng: random.Random, outstations: int) -> Iterator[tuple[int, str, int]]:
    """Up to three points of each kind and outstation; a few have the same index, and some follow each other."""
    for outstation in range(outstations):
        for kind in SHOWN:
            base = rng.choice([0, 0, 3, 254, 65533])
            for index in rng.sample(range(base, base + 3), rng.choice([0, 1, 1, 2, 3])):
                yield outstation, kind, index


def random_setup(rng: random.Random) -> Setup:
    common, outstations = rng.choice([1, 1, 257, 65534]), rng.randint(1, 3)
    own = [rng.choice([None, None, None, 1, 2, 258, 65534]) for _ in range(outstations)]
    commons = [it or common for it in own]
    some = [1, 255, 256, 65536, 16777215, *range(4101, 4101 + 60)]
    # Under each common address each object address stands once.
    addresses = {it: iter(rng.sample(some, 60)) for it in commons}
    k = rng.choice([1, 2, 3, 8, 12, 12, 30])
    station, periods = random_station(rng, common, k)
    texts = [station]
    for number in range(outstations):
        text, more = random_outstation(rng, number + 1, own[number])
        texts.append(text)
        periods += more
    points = [(*point, next(addresses[commons[point[0]]])) for point in random_points(rng, outstations)]
    places = [(rng.randrange(outstations), it) for it in ["single", "double", "setpoint"] for _ in range(rng.randrange(3))]
    controls = [(*place, next(addresses[commons[place[0]]])) for place in places]
    texts += [random_point(rng, *it) for it in points] + [random_control(rng, *it) for it in controls]
    return Setup("\n".join(texts), commons, k, outstations, points, controls, periods)


# ---- objects of DNP3: group and variation, and how long they are

# In bits.
PACKED = {"binary": (1, 1, 1), "double": (3, 1, 2), "output": (10, 1, 1)}
# In octets.
OBJECTS = {
    "binary": {(1, 2): 1, (2, 1): 1, (2, 2): 7, (2, 3): 3},
    "double": {(3, 2): 1, (4, 1): 1, (4, 2): 7, (4, 3): 3},
    "output": {(10, 2): 1, (11, 1): 1, (11, 2): 7},
    "counter": {(20, 1): 5, (20, 2): 3, (20, 5): 4, (20, 6): 2, (22, 1): 5, (22, 2): 3, (22, 5): 11, (22, 6): 9},
    "analog": {(30, 1): 5, (30, 2): 3, (30, 3): 4, (30, 4): 2, (32, 1): 5, (32, 2): 3, (32, 3): 11, (32, 4): 9},
}
WITHOUT_FLAGS = [(20, 5), (20, 6), (30, 3), (30, 4)]
WITH_TIME = [(2, 2), (4, 2), (11, 2), (22, 5), (22, 6), (32, 3), (32, 4)]
TIME_LENGTH = {(2, 3): 2, (4, 3): 2} | dict.fromkeys(WITH_TIME, 6)
# What is stepped over, and echoes of commands.
NO_POINTS = {
    **{(12, 1): 11, (41, 2): 3, (13, 1): 1, (13, 2): 7, (30, 5): 5, (30, 6): 9},
    **{(21, 1): 5, (21, 2): 3, (21, 5): 11, (21, 6): 9, (21, 9): 4, (21, 10): 2},
    **{(23, 1): 5, (23, 2): 3, (23, 5): 11, (23, 6): 9, (32, 5): 5, (32, 6): 9, (32, 7): 11, (32, 8): 15},
    **{(40, 1): 5, (40, 2): 3, (40, 3): 5, (40, 4): 9, (42, 1): 5, (42, 2): 3, (42, 3): 11, (42, 4): 9},
    **{(42, 5): 5, (42, 6): 9, (42, 7): 11, (42, 8): 15, (110, 1): 1, (110, 9): 9, (111, 2): 2, (111, 255): 255},
}
INDEXED_ALONE = [(12, 1), (41, 2)]
# Headers that refuse a fragment, and what may stand behind them.
FAULTY = ["C8 01 06", "02 01 06", "02 01", "02", "02 01 17", "01 02 00 05 04", "01 02 00 05 06 81", "01 01 17 00"]
FAULTY += ["33 01 17 00", "02 01 07 01 81", "3C 01 06", "1E 07 00 00 00", "6E 00 00 00 00", "0C 01 00 00 00"]
FAULTY += ["02 01 5B 01", "32 01 07 01"]
# The ends of the years that time tags have, in UTC, and the ends of 48 bits.
TIMES = [946_684_799_999, 946_684_800_000, 4_102_444_799_999, 4_102_444_800_000, 0, 2**48 - 1]


def random_time(rng: random.Random) -> bytes:
    """48 bits of milliseconds."""
    return low_first(rng.choice([WALL + rng.randrange(10**6), WALL, rng.choice(TIMES), rng.randrange(2**48)]), 6)


def random_object(rng: random.Random, key: tuple[int, int], length: int) -> bytes:
    """An object: its flags, its value, which is mostly one of a few, and its time."""
    timed = TIME_LENGTH.get(key, 0)
    flags = bytes() if key in WITHOUT_FLAGS else bytes([rng.choice([1, 1, 0x81, 0x81, 0x41, 0, rng.randrange(256)])])
    value = rng.choice([0, 1, 1, -1, 32767, -32769, 2**31 - 1, -(2**31), rng.randrange(2**32)])
    when = {0: bytes(), 2: low_first(rng.randrange(2**16), 2), 6: random_time(rng)}[timed]
    return flags + low_first(value, length - len(flags) - timed) + when


def near(rng: random.Random, setup: Setup, outstation: int, kind: str) -> int:
    """The index of a point, or one beside it."""
    index = rng.choice([*setup.indexes(outstation, kind), rng.randrange(10)])
    return max(0, min(65535, index + rng.choice([0, 0, 0, 0, 1, -1])))


def range_of(rng: random.Random, first: int, count: int) -> tuple[bytes, int]:
    """A qualifier and a range of 8 or 16 bits, and how many indexes stand in it."""
    last = min(65535, first + count - 1)
    size = 1 if last < 256 and rng.random() < 0.7 else 2
    return bytes([size - 1]) + low_first(first, size) + low_first(last, size), last - first + 1


def packed_header(rng: random.Random, setup: Setup, outstation: int, kind: str) -> bytes:
    """A header of packed objects, and these."""
    group, variation, bits = PACKED[kind]
    head, count = range_of(rng, near(rng, setup, outstation, kind), rng.randint(1, 20))
    return bytes([group, variation]) + head + rng.randbytes((count * bits + 7) // 8)


def ranged_header(rng: random.Random, key: tuple[int, int], length: int, first: int) -> bytes:
    """A header with a range, and its objects."""
    head, count = range_of(rng, first, rng.randint(1, 4))
    return bytes(key) + head + b"".join(random_object(rng, key, length) for _ in range(count))


def indexed_header(rng: random.Random, key: tuple[int, int], length: int, indexes: Sequence[int]) -> bytes:
    """A header with a count, and its objects, each behind its index."""
    size = 1 if max(indexes, default=0) < 256 and rng.random() < 0.7 else 2
    wide = rng.random() < 0.2
    qualifier = {1: 0x17, 2: 0x27}[size] + wide
    objects = b"".join(low_first(it, size) + random_object(rng, key, length) for it in indexes)
    return bytes([*key, qualifier]) + low_first(len(indexes), 2 if wide else 1) + objects


def point_header(rng: random.Random, setup: Setup, outstation: int) -> bytes:
    """A header of points, and its objects."""
    kind = rng.choice(list(OBJECTS))
    if kind in PACKED and rng.random() < 0.25:
        return packed_header(rng, setup, outstation, kind)
    key, length = rng.choice(list(OBJECTS[kind].items()))
    if rng.random() < 0.4:
        return ranged_header(rng, key, length, near(rng, setup, outstation, kind))
    indexes = [near(rng, setup, outstation, kind) for _ in range(rng.choice([0, 1, 1, 1, 2, 3, 6]))]
    return indexed_header(rng, key, length, indexes)


def other_header(rng: random.Random) -> bytes:
    """A header that means no point, with its objects; a common time too."""
    if rng.random() < 0.5:
        wide = rng.random() < 0.3
        count = rng.choice([0, 1, 1, 1, 2])
        head = bytes([51, rng.choice([1, 2]), 8 if wide else 7]) + low_first(count, 2 if wide else 1)
        return head + b"".join(random_time(rng) for _ in range(count))
    key, length = rng.choice(list(NO_POINTS.items()))
    indexes = [rng.randrange(300) for _ in range(rng.choice([0, 1, 1, 2]))]
    if key in INDEXED_ALONE or rng.random() < 0.5:
        return indexed_header(rng, key, length, indexes)
    return ranged_header(rng, key, length, rng.randrange(300))


def random_objects(rng: random.Random, setup: Setup, outstation: int) -> bytes:
    """The objects of a fragment, at most 2,044 octets, and now and then with what refuses it."""
    part = bytes()
    for _ in range(rng.choice([0, 1, 1, 2, 3, 6, 6 if rng.random() < 0.9 else 200])):
        header = point_header(rng, setup, outstation) if rng.random() < 0.75 else other_header(rng)
        if len(part) + len(header) <= 2044:
            part += header
    if rng.random() < 0.04:
        part += bytes.fromhex(rng.choice(FAULTY))
    elif part and rng.random() < 0.02:
        part = part[: -rng.randint(1, min(8, len(part)))]
    return part[:2044]


def random_indications(rng: random.Random) -> bytes:
    """The two octets of internal indications: mostly none is set, or one that matters."""
    some = ["80 00", "10 00", "02 00", "04 00", "00 08", "90 08"]
    return rng.randbytes(2) if rng.random() < 0.05 else bytes.fromhex(rng.choice(["00 00"] * len(some) + some))


def response(
    rng: random.Random, setup: Setup, outstation: int, control: int, function: int, objects: bytes = b"",
) -> bytes:
    """A response with these objects, or with random ones."""
    objects = objects or random_objects(rng, setup, outstation)
    return bytes([control, function]) + random_indications(rng) + objects


# What the requests of orders ask for.
OPERATIONS = {0x03: "select", 0x04: "operate", 0x05: "direct operate"}


def echo(rng: random.Random, objects: bytes) -> bytes:
    """The objects of an order's request as they come back: mostly as they were, or with a status, seldom otherwise."""
    changed, chance = bytearray(objects), rng.random()
    if chance < 0.1:
        changed[-1] = rng.choice([1, 4, 127, 255])
    elif chance < 0.15:
        changed[rng.randrange(5, len(changed))] ^= 1 << rng.randrange(8)
    elif chance < 0.2:
        return rng.choice([b"", objects * 2, objects[:5]])
    return bytes(changed)


def random_fragment(rng: random.Random, setup: Setup) -> str:
    """A line of `translate`: a response mostly, seldom what isn't one, or no octets."""
    octets = response(rng, setup, 0, rng.randrange(256), rng.choice([*[129, 130] * 8, rng.randrange(256)]))
    line, chance = spelled(octets), rng.random()
    if chance < 0.01:
        parted = [line.replace(" ", it, 1) for it in ("  ", "\t", "")]
        return rng.choice(["", " ", "C0 81", line + " ", line + "\r", line[:-1], "G" + line[1:], *parted])
    if chance < 0.02:
        filled = line + " 00" * (2048 - len(octets))
        return rng.choice([spelled(octets[:3]), filled, filled + " 00"])
    return line.lower() if chance < 0.04 else line


# ---- what is known of the peers, by the replies


@dataclass
class Outstation:
    """An outstation: the next sequence, that of the request that awaits its answer, how many fragments that has, and
    the request's objects where it is an order's."""

    number: int
    is_up: bool = False
    sequence: int = 0
    awaiting: int | None = None
    fragments: int = 0
    operated: bytes = b""
    unsolicited: int = 0
    last: bytes | None = None

    def learn(self, verb: str, octets: bytes | None, reply: str) -> None:
        if verb == "up" and reply == "ok":
            self.is_up, self.sequence, self.awaiting = True, 0, None
        elif verb == "down" or reply == "fault 3 NotUp":
            self.is_up = False
        elif reply.startswith("request "):
            octets = bytes.fromhex(reply.removeprefix("request "))
            self.awaiting, self.operated = octets[0] % 16, octets[2:] if octets[1] in OPERATIONS else b""
            self.sequence, self.fragments = (self.awaiting + 1) % 16, 0
        elif verb == "frag" and octets[1] == 129 and self.awaiting is not None:
            self.learn_answer(reply)

    def learn_answer(self, reply: str) -> None:
        """A fragment of function RESPONSE had this reply."""
        if reply.startswith("accepted"):
            self.fragments += 1
            self.sequence = (self.awaiting + self.fragments) % 16
        if reply.endswith(" end") or reply == "ignored NoRequest":
            self.awaiting = None


@dataclass
class Client:
    """A client, and three counts of its connection: I formats that it sent, and got, and acknowledged."""

    number: int
    is_up: bool = False
    is_started: bool = False
    sent: int = 0
    got: int = 0
    acknowledged: int = 0

    def learn(self, verb: str, octets: bytes | None, reply: str) -> None:
        if verb == "open" and reply == "ok":
            self.is_up, self.is_started, self.sent, self.got, self.acknowledged = True, False, 0, 0, 0
        elif verb == "close" or reply == "fault 3 NotUp" or reply.startswith("closed"):
            self.is_up = self.is_started = False
        elif reply == "taken":
            self.learn_frame(octets)
        elif reply.startswith("apdu ") and int(reply.split()[3], 16) % 2 == 0:
            self.got += 1

    def learn_frame(self, octets: bytes) -> None:
        """An APDU was taken."""
        if octets[2] % 4 == 3:
            self.is_started = octets[2] == 0x07 or self.is_started and octets[2] != 0x13
            return
        self.sent += 1 - octets[2] % 2
        self.acknowledged = min(int.from_bytes(octets[4:6], "little") // 2, self.got)


# ---- what an outstation does: scenes give the verbs, numbers and octets of lines

Part = tuple[str, int | None, str | None]
Turn = Callable[[random.Random, Setup, Any], Iterator[Part]]


def alone(verb: str) -> Turn:
    """What makes the one line of a peer with this verb."""

    def scene(_rng: random.Random, _setup: Setup, peer: Outstation | Client) -> Iterator[Part]:
        yield verb, peer.number, None

    return scene


def silence(_rng: random.Random, _setup: Setup, _peer: Outstation | Client) -> Iterator[Part]:
    return iter(())


def answers(
    rng: random.Random, setup: Setup, outstation: Outstation, first: int, place: int, count: int,
) -> Iterator[bytes]:
    """So many fragments of an answer whose first one has this sequence, from a place on. Some are wrong."""
    for number in range(place, place + count):
        control = 0x80 * (number == 0) | 0x40 * (number == place + count - 1) | (first + number) % 16
        control |= 0x20 * (rng.random() < 0.3)
        if rng.random() < 0.05:
            control ^= rng.choice([0x01, 0x03, 0x08, 0x80, 0x40, 0x10])
        is_echo = outstation.awaiting is not None and number == place + count - 1 and outstation.operated
        objects = echo(rng, outstation.operated) if is_echo else b""
        yield response(rng, setup, outstation.number, control, 129, objects)


def answer(rng: random.Random, setup: Setup, outstation: Outstation) -> Iterator[Part]:
    """A poll, where no request awaits its answer, and mostly the answer."""
    number = outstation.number
    if outstation.awaiting is None:
        yield "poll", number, str(rng.choice([0, WALL, WALL + rng.randrange(10**6), 2**48 - 1, LARGEST]))
        if rng.random() < 0.5:
            return
    waits = outstation.awaiting is not None
    first, place = (outstation.awaiting, outstation.fragments) if waits else (outstation.sequence, 0)
    count = rng.choice([1, 1, 1, 2, 3]) if rng.random() < 0.99 else 17
    for octets in answers(rng, setup, outstation, first, place, count):
        yield "frag", number, spelled(octets)
        if rng.random() < 0.1:
            yield "poll", number, "0"


def unsolicited(rng: random.Random, setup: Setup, outstation: Outstation) -> Iterator[Part]:
    """Unsolicited responses, and repeated ones."""
    for _ in range(rng.choice([1, 1, 2, 4])):
        control = 0xD0 | 0x20 * (rng.random() < 0.8) | outstation.unsolicited
        if outstation.last and rng.random() < 0.25:
            yield "frag", outstation.number, spelled(outstation.last)
            continue
        if rng.random() < 0.05:
            control = rng.randrange(256)
        outstation.unsolicited = (outstation.unsolicited + 1) % 16
        outstation.last = response(rng, setup, outstation.number, control, 130)
        yield "frag", outstation.number, spelled(outstation.last)


def storm(rng: random.Random, setup: Setup, outstation: Outstation) -> Iterator[Part]:
    """Many events, for full queues: two points whose values change."""
    indexes = [near(rng, setup, outstation.number, "binary") for _ in range(2)] * rng.choice([2, 10, 60])
    octets = bytes([0xF0 | outstation.unsolicited, 130, 0, 0]) + indexed_header(rng, (2, 1), 1, indexes)
    outstation.unsolicited = (outstation.unsolicited + 1) % 16
    yield "frag", outstation.number, spelled(octets)


def stray(rng: random.Random, setup: Setup, outstation: Outstation) -> Iterator[Part]:
    """Any fragment: short, of another function, an answer to nothing."""
    octets = response(rng, setup, outstation.number, rng.randrange(256), rng.choice([129, 129, 130, 0, 1, 131]))
    yield "frag", outstation.number, spelled(octets[: rng.choice([1, 3, 4, 2048, 2048])])


OF_LOST_OUTSTATION = [(alone("up"), 8), (stray, 1), (answer, 1), (alone("down"), 1)]
OF_OUTSTATION = [(answer, 12), (unsolicited, 5), (storm, 1), (stray, 1), (silence, 2)]
OF_OUTSTATION += [(alone("down"), 0.5), (alone("up"), 0.2)]


# ---- what a client does


STARTDT, STOPDT, TESTFR = u_format(0x07), u_format(0x13), u_format(0x43)
# The type, the octets behind its object's address, and how its controls are shown.
COMMANDS = {"single": (45, 1), "double": (46, 1), "setpoint": (49, 3)}


def random_element(rng: random.Random, length: int) -> bytes:
    """What stands behind the address of a command: mostly a small value without reserved bits."""
    few = [0, 1, 2, 0x81, 0x82, 5, 0x21]
    return low_first(rng.choice(few), length) if rng.random() < 0.8 else rng.randbytes(length)


def random_information(rng: random.Random, setup: Setup) -> tuple[int, int, bytes]:
    """A type, a cause that is right for it, and its object."""
    choice = rng.choice(["station", "station", "totals", "read", "read", "command", "command", "other"])
    if choice == "other":
        return rng.choice([103, 1, 58, 105, 0, 255, 44, 99]), 6, rng.randbytes(rng.choice([0, 3, 4, 10, 243]))
    if choice in ("station", "totals"):
        address = low_first(0 if rng.random() < 0.93 else rng.choice([1, 4101, 2**24 - 1]), 3)
        kind, qualifier = {"station": (100, 20), "totals": (101, 5)}[choice]
        return kind, 6, address + bytes([qualifier if rng.random() < 0.85 else rng.randrange(256)])
    if choice == "read":
        return 102, 5, low_first(rng.choice([*(it[3] for it in setup.points), 1, 4101, rng.randrange(2**24)]), 3)
    show = rng.choice(list(COMMANDS))
    kind, length = COMMANDS[show]
    addresses = [it[2] for it in setup.controls if it[1] == show] * 3 + [it[2] for it in setup.controls]
    return kind, 6, low_first(rng.choice([*addresses, 4101]), 3) + random_element(rng, length)


def random_asdu(rng: random.Random, setup: Setup) -> bytes:
    """An ASDU of a client. Some have a wrong count, cause, common address or length."""
    kind, cause, information = random_information(rng, setup)
    count, common = 1, rng.choice(setup.known)
    if rng.random() < 0.1:
        cause = rng.choice([cause | 0x80, cause | 0x40, 3, 0, 63, rng.randrange(256)])
    elif kind != 102 and rng.random() < 0.15:
        cause = 8
    if rng.random() < 0.12:
        common = rng.choice([65535, 65535, 0, common + 1, rng.randrange(65536)])
    if rng.random() < 0.01:
        count = rng.choice([0, 2, 0x81, 0x80, rng.randrange(256)])
    if rng.random() < 0.01:
        information = rng.choice([information + b"\x00", information[:-1], information[:2]])
    return bytes([kind, count, cause, rng.choice([0, 0, 1, 255])]) + low_first(common, 2) + information


def frame(client: Client, octets: bytes) -> Part:
    return "frame", client.number, spelled(octets)


def right_number(rng: random.Random, client: Client) -> int:
    """How many I formats are acknowledged: mostly all, or some of those that were sent, seldom others."""
    some = rng.randint(client.acknowledged, client.got)
    wrong = rng.choice([client.got + 1, client.acknowledged - 1, rng.randrange(32768)])
    return rng.choices([client.got, some, wrong], [0.85, 0.13, 0.02])[0]


def commands(rng: random.Random, setup: Setup, client: Client) -> Iterator[Part]:
    """ASDUs, with right numbers mostly, and some pumps."""
    sent, got = client.sent + rng.choice([1, -1, 1000]) * (rng.random() < 0.02), right_number(rng, client)
    for number in range(rng.choice([1, 1, 1, 2, 4])):
        asdu = random_asdu(rng, setup) if rng.random() < 0.995 else rng.randbytes(rng.randrange(7))
        yield frame(client, i_format(sent + number, got, asdu))
        if rng.random() < 0.6:
            yield "pump", client.number, None


def permitted(rng: random.Random, show: str) -> bytes:
    """The element of a command that may be carried out, by which it executes."""
    if show == "setpoint":
        return low_first(rng.choice([0, 1, -1, 100, 32767, -32768]), 2) + b"\0"
    state = rng.choice([0, 1] if show == "single" else [1, 2])
    return bytes([rng.choice([0, 0, 1, 2, 3]) << 2 | state])


def operations(rng: random.Random, setup: Setup, client: Client) -> Iterator[Part]:
    """A control is mostly selected, and then executed; seldom it is deactivated, or something else is executed."""
    if not setup.controls:
        return
    outstation, show, address = rng.choice(setup.controls)
    element = permitted(rng, show)
    select = element[:-1] + bytes([element[-1] | 0x80])
    acts = [(6, select)] * (rng.random() < 0.8) + [(8, select)] * (rng.random() < 0.1)
    acts += [(6, element if rng.random() < 0.9 else permitted(rng, show))] * (rng.random() < 0.9)
    for number, (cause, octets) in enumerate(acts):
        head = bytes([COMMANDS[show][0], 1, cause, 0]) + low_first(setup.commons[outstation], 2) + low_first(address, 3)
        yield frame(client, i_format(client.sent + number, client.got, head + octets))
        if rng.random() < 0.5:
            yield "pump", client.number, None


def start(rng: random.Random, _setup: Setup, client: Client) -> Iterator[Part]:
    """A client starts, and is told so."""
    if not client.is_up:
        yield "open", client.number, None
    yield frame(client, STARTDT)
    if rng.random() < 0.9:
        yield "pump", client.number, None


def pumps(rng: random.Random, setup: Setup, client: Client) -> Iterator[Part]:
    """Up to one pump more than a window has."""
    for _ in range(rng.choice([1, 2, setup.k + 1])):
        yield "pump", client.number, None


def acknowledge(rng: random.Random, setup: Setup, client: Client) -> Iterator[Part]:
    yield frame(client, s_format(right_number(rng, client)))
    yield from pumps(rng, setup, client)


def signals(rng: random.Random, _setup: Setup, client: Client) -> Iterator[Part]:
    """U formats, and seldom an end of data transfer."""
    for _ in range(rng.choice([1, 1, 2])):
        yield frame(client, u_format(rng.choice([0x43, 0x43, 0x43, 0x83, 0x83, 0x0B, 0x23, 0x07])))
    yield "pump", client.number, None


def stop(rng: random.Random, _setup: Setup, client: Client) -> Iterator[Part]:
    yield frame(client, STOPDT)
    for _ in range(rng.choice([0, 1, 2])):
        yield "pump", client.number, None


def flood(rng: random.Random, setup: Setup, client: Client) -> Iterator[Part]:
    """More than waits for a client."""
    commons = [low_first(it, 2) for it in setup.commons]
    asdus = [bytes([102, 1, 5, 0]) + commons[0] + low_first(4101, 3)]
    asdus += [bytes([45, 1, 6, 0]) + commons[it[0]] + low_first(it[2], 3) + b"\x01" for it in setup.controls]
    asdu = rng.choice([None, *asdus])
    for number in range(rng.choice([31, 32, 33, 34])):
        yield frame(client, i_format(client.sent + number, client.got, asdu) if asdu else TESTFR)


def test(_rng: random.Random, _setup: Setup, client: Client) -> Iterator[Part]:
    """The station's test, where it was sent, is confirmed."""
    yield "pump", client.number, None
    yield frame(client, u_format(0x83))


def broken(rng: random.Random, _setup: Setup, client: Client) -> Iterator[Part]:
    """Octets that are no APDU, or not one alone."""
    changed = bytearray(rng.choice([STARTDT, TESTFR, s_format(client.got)]))
    changed[rng.randrange(6)] ^= rng.choice([1, 2, 4, 0x80, 0xFF])
    cut = [TESTFR[:1], TESTFR[:5], TESTFR + b"\x00", TESTFR + TESTFR]
    yield frame(client, rng.choice([*cut, b"\x69", b"\x68\x03", b"\x68\xfe", bytes(changed)]))


OF_LOST_CLIENT = [(start, 12), (signals, 1), *((alone(it), 1) for it in ("open", "pump", "close"))]
OF_STOPPED_CLIENT = [(start, 10), (signals, 2), (acknowledge, 1), (commands, 1), (pumps, 1), (stop, 1)]
OF_STOPPED_CLIENT += [(alone("close"), 0.5)]
OF_CLIENT = [(commands, 10), (operations, 8), (acknowledge, 16), (pumps, 3), (signals, 2), (test, 2), (broken, 1)]
OF_CLIENT += [(silence, 2), (stop, 0.7), (start, 0.5), (flood, 0.4), (alone("close"), 0.3), (alone("open"), 0.2)]


# ---- replays

# What is no line of a replay.
NO_LINES = ["up 0", "up 256 0", "up 0 0 ", " up 0 0", "up  0 0", "UP 0 0", "up 0 0\r", "up -1 0", "up +1 0", "tick"]
NO_LINES += ["tick x", f"tick {LARGEST + 1}", "poll 0 0", "frag 0 0 C0 8", "frag 0 0 G0", "frag 0 0", "frag 0 0 "]
NO_LINES += ["frag 0 0" + " C0" * 2049, "frame 0 0", "frame 0 0 ", "frame 0 0 68\t04", "queue", "queue 256", "what 0 0"]
NO_LINES += ["up " + "0" * 8200 + " 0", "\0"]


def interleaved(rng: random.Random, scenes: Iterable[Iterable[Part]]) -> Iterator[Part]:
    """The lines of some scenes, those of each in order."""
    waiting = [list(it) for it in scenes]
    while waiting := [it for it in waiting if it]:
        yield rng.choice(waiting).pop(0)


@dataclass
class Replay:
    """A replay that is being made: its lines, what is known of the peers, and the largest moment."""

    rng: random.Random
    setup: Setup
    lines: list = field(default_factory=list)
    learned: int = 0
    moment: int = 0

    def __post_init__(self) -> None:
        self.moment = self.rng.choice([0, 0, 0, 123_456, WALL, LARGEST - 10**5])
        self.outstations = [Outstation(it) for it in range(self.setup.outstations)]
        self.clients = [Client(it) for it in self.rng.sample(range(8), self.rng.randint(1, 3))]
        if self.rng.random() < 0.05:
            self.outstations.append(Outstation(self.rng.choice([self.setup.outstations, 255])))
            self.clients.append(Client(self.rng.choice([8, 255])))

    def peers(self) -> Iterator[tuple[Outstation | Client, list[tuple[Turn, float]]]]:
        """Each peer, and the scenes that it may play, with how often it does."""
        for it in self.outstations:
            yield it, OF_OUTSTATION if it.is_up else OF_LOST_OUTSTATION
        for it in self.clients:
            yield it, OF_CLIENT if it.is_started else OF_STOPPED_CLIENT if it.is_up else OF_LOST_CLIENT

    def next_moment(self) -> int:
        """A moment: mostly as large as before or larger, now and then beyond one of the periods, and seldom smaller."""
        chance = self.rng.random()
        if chance < 0.03:
            return self.rng.randint(0, self.moment)
        if chance < 0.06:
            self.moment += max(0, self.rng.choice(self.setup.periods) + self.rng.choice([-1, 0, 0, 1]))
        elif chance < 0.3:
            self.moment += self.rng.choice([1, 1, 10, 100])
        self.moment = min(self.moment, LARGEST)
        return self.moment

    def add(self, verb: str, number: int | None, rest: str | None) -> None:
        """Adds a line, now and then with other spelling, and an empty one."""
        moment = None if verb == "queue" else self.next_moment()
        line = " ".join(str(it) for it in (verb, number, moment, rest) if it is not None)
        if self.rng.random() < 0.01:
            self.lines.append("")
        if self.rng.random() < 0.01:
            line = line.replace(" ", " 00", 1) if rest is None else f"{verb}{line[len(verb):].lower()}"
        self.lines.append(line)

    def add_burst(self) -> None:
        """Adds what peers do at the same time, and lines that are no peer's."""
        scenes = []
        for peer, choices in self.peers():
            if self.rng.random() < 0.8:
                scene = self.rng.choices([it for it, _ in choices], [it for _, it in choices])[0]
                scenes.append(scene(self.rng, self.setup, peer))
        scenes.append([("queue", self.rng.choice(self.clients).number, None)])
        scenes.append([("tick", None, None)] * self.rng.choice([0, 1, 1, 2]))
        for parts in interleaved(self.rng, scenes):
            self.add(*parts)

    def learn(self, replies: list[str]) -> None:
        """Learns from the replies to what was added; there are fewer than lines where the replay has ended."""
        lines = [it for it in self.lines if it]
        for line, reply in list(zip(lines, replies))[self.learned :]:
            self.learn_reply(line.split(" "), reply)
        self.learned = len(replies)

    def learn_reply(self, words: list[str], reply: str) -> None:
        if words[0] == "tick":
            for it in self.clients:
                if str(it.number) in reply.split()[1:]:
                    it.is_up = it.is_started = False
        elif words[0] != "queue" and not reply.startswith("refused"):
            peers = self.outstations if words[0] in ("up", "down", "frag", "poll") else self.clients
            octets = bytes.fromhex("".join(words[3:])) if words[0] in ("frag", "frame") else None
            next(it for it in peers if it.number == int(words[1])).learn(words[0], octets, reply)
