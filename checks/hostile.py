"""Octets and lines as hostile peers make them: mostly right, but for one thing."""
import struct
from collections.abc import Iterator
from random import Random
from typing import Any, Protocol

from framing import MASTER, SEGMENT, USER_DATA, frame, i_format, s_format, sealed, segments, u_format
from judges.settings_rules import KEYS
from random_steps import FAULTY, LARGEST, NO_LINES, Setup, low_first, random_asdu, random_objects


class Task(Protocol):
    """A task of `checks/fuzz`: which surface of which program it plays, where, and how; `house` is the gateway, where it has one."""

    surface: str
    place: int
    program: str
    seed: int
    file: str
    house: Any
    tally: Any

    def turns(self) -> Iterator[Random]:
        """Random numbers for each turn."""
        ...


# ---- any octets


def changed(rng: Random, octets: bytes, first: int = 0, behind: int | None = None) -> bytes:
    """One octet, from a place on and before another, is another one."""
    octets = bytearray(octets)
    place = rng.randrange(first, min(behind or len(octets), len(octets)))
    octets[place] ^= rng.choice([1 << rng.randrange(8), rng.randrange(1, 256)])
    return bytes(octets)


def cut(rng: Random, octets: bytes) -> bytes:
    return octets[: rng.randrange(len(octets))]


def filled(rng: Random, octets: bytes) -> bytes:
    """Octets more, at the end or within."""
    place = rng.choice([len(octets), rng.randrange(len(octets) + 1)])
    return octets[:place] + rng.randbytes(rng.choice([1, 2, 16, 300])) + octets[place:]


def noise(rng: Random) -> bytes:
    """Octets that mean nothing, of which some begin a frame or an APDU."""
    octets = bytearray(rng.randbytes(rng.choice([1, 10, 100, 300, 1000, 5000])))
    for _ in range(rng.randrange(6)):
        place = rng.randrange(len(octets))
        octets[place : place + 2] = rng.choice([b"\x05\x64", b"\x68\x04", b"\x68\xFD", b"\x05\x05"])
    return bytes(octets)


# ---- DNP3 (IEEE Std 1815): frames, segments and fragments


def wrong_length(rng: Random, user: bytes, source: int) -> bytes:
    """A frame whose LENGTH tells of other octets than there are; all CRCs are right."""
    length = rng.choice([0, 1, 4, 5, 255, 4 + len(user), 6 + len(user), rng.randrange(256)])
    return sealed(struct.pack("<BBBBHH", 0x05, 0x64, length & 0xFF, USER_DATA, MASTER, source), user)


def wrong_addresses(rng: Random, user: bytes, source: int) -> bytes:
    wrong = rng.choice([0, 1, 0xFFFC, 0xFFFD, 0xFFFF, rng.randrange(65536)])
    which = rng.choice([dict(destination=wrong), dict(source=wrong)])
    return frame(user, **{"source": source} | which)


def wrong_control(rng: Random, user: bytes, source: int) -> bytes:
    return frame(user, rng.randrange(256), source=source)


def wrong_frame(rng: Random, user: bytes, source: int) -> bytes:
    """A frame with one thing wrong: an octet, its length, an address, CONTROL, or octets that are left out or added."""
    right = frame(user, source=source)
    ways = [wrong_length, wrong_addresses, wrong_control]
    if rng.random() < 0.5:
        return rng.choice(ways)(rng, user, source)
    ways = [lambda: changed(rng, right), lambda: changed(rng, right, 0, 3), lambda: changed(rng, right, 8, 10)]
    ways += [lambda: cut(rng, right), lambda: filled(rng, right), lambda: right + right[:-1]]
    return rng.choice(ways)()


def link_service(rng: Random, user: bytes, source: int) -> bytes:
    """Frames of the link itself, and confirmed user data with either frame count bit."""
    controls = [0x40, 0x42, 0x62, 0x72, 0x43, 0x53, 0x63, 0x73, 0x49, 0x59, 0x44, 0x54, rng.randrange(256)]
    wanted = [rng.choice(controls) for _ in range(rng.randrange(1, 9))]
    return b"".join(frame(user if it & 0x0F in (3, 4) else b"", it, source=source) for it in wanted)


def wrong_segments(rng: Random, fragment: bytes, first: int) -> list[bytes]:
    """The segments of a fragment with one thing wrong."""
    carried = segments(fragment, first)
    place = rng.randrange(len(carried))
    header = bytes([carried[place][0] ^ rng.choice([0x80, 0x40, 0xC0, 1 << rng.randrange(6)])])
    another = bytes([rng.randrange(256)]) + rng.randbytes(rng.choice([0, 1, SEGMENT]))
    ways = [
        carried[:place] + carried[place + 1 :],
        carried[: place + 1] + carried[place:],
        carried[:place] + [header + carried[place][1:]] + carried[place + 1 :],
        carried[:place] + [carried[place][:1]] + carried[place:],
        carried[:place] + [another] + carried[place:],
        carried[::-1],
        carried[:place],
    ]
    return rng.choice(ways)


def endless_segments(rng: Random, first: int) -> list[bytes]:
    """A series of segments that ends behind as many octets as a fragment may have, or one too many, or not at all."""
    size = rng.choice([2047, 2048, 2049, 2300, 10_000])
    carried = segments(rng.randbytes(size), first)
    return carried if rng.random() < 0.7 else carried[:-1]


def many_headers(rng: Random) -> bytes:
    """As many headers as a fragment may have, or one too many."""
    header = rng.choice(["02 01 17 00", "1E 01 17 00", "33 01 07 00", "6E 01 17 00"])
    return bytes.fromhex(header) * rng.choice([511, 512, 513])


def packed_inputs(rng: Random) -> bytes:
    """Binary inputs in packed format, as many as a fragment has room for, or one octet's too many."""
    count = rng.choice([16_296, 16_297, rng.randrange(1, 16_000)])
    head = bytes([rng.choice([1, 10]), 1, 1, 0, 0]) + low_first(count - 1, 2)
    return head + rng.randbytes(min((count + 7) // 8, 2044 - len(head)))


def wrong_fragment(rng: Random, fragment: bytes) -> bytes:
    """A response with one thing wrong: its control, function or indications, a header, an object, its length."""
    ways = [
        lambda: changed(rng, fragment),
        lambda: changed(rng, fragment, 0, 2),
        lambda: changed(rng, fragment, min(4, len(fragment) - 1), 11),
        lambda: cut(rng, fragment),
        lambda: filled(rng, fragment)[:2048],
        lambda: (fragment + bytes.fromhex(rng.choice(FAULTY)))[:2048],
        lambda: fragment[:4] + many_headers(rng)[:2044],
        lambda: fragment[:4] + packed_inputs(rng),
        lambda: (fragment + fragment[4:] * 3)[:2048],
        lambda: rng.randbytes(rng.choice([1, 2, 3, 4, 8, 100, 2048])),
    ]
    return rng.choice(ways)() or b"\xC0"


def random_response(rng: Random, setup: Setup, outstation: int, control: int, function: int) -> bytes:
    """A response with random objects and indications, or with as many as can be."""
    iin = rng.choice([bytes(2)] * 4 + [b"\x80\0", b"\x10\0", b"\x0E\0", b"\0\x08", rng.randbytes(2)])
    objects = packed_inputs(rng) if rng.random() < 0.05 else random_objects(rng, setup, outstation)
    return bytes([control, function]) + iin + objects


# ---- IEC 60870-5-104: ASDUs and APDUs


def wrong_asdu(rng: Random, setup: Setup) -> bytes:
    """An ASDU with one thing wrong: type, SQ and number, cause, originator, an address, a qualifier, its length."""
    asdu = random_asdu(rng, setup)
    places = [(0, 1), (1, 2), (2, 3), (3, 4), (4, 6), (6, 9), (9, None)]
    first, behind = rng.choice([it for it in places if it[0] < len(asdu)] or [(0, None)])
    ways = [lambda: changed(rng, asdu, first, behind)] * 4
    ways += [lambda: cut(rng, asdu), lambda: filled(rng, asdu)[:249], lambda: rng.randbytes(rng.randrange(250))]
    return rng.choice(ways)() if asdu else asdu


def wrong_numbers(rng: Random, sent: int, got: int, asdu: bytes) -> bytes:
    """An I format whose N(S) or N(R) isn't right."""
    sent, got = rng.choice([(sent + 1, got), (sent - 1, got), (rng.randrange(32768), got),
                            (sent, got + rng.choice([-1, 1, 5000, 16384, 32767])), (got, sent)])
    return i_format(sent, got, asdu)


def wrong_apdu(rng: Random, sent: int, got: int, asdu: bytes) -> bytes:
    """An APDU with one thing wrong: the start octet, the length, the control field."""
    right = rng.choice([i_format(sent, got, asdu), s_format(got), u_format(rng.choice([0x07, 0x13, 0x43, 0x83]))])
    ways = [
        lambda: changed(rng, right, 0, 1),
        lambda: right[:1] + bytes([rng.choice([0, 1, 3, 4, 5, 253, 254, 255, right[1] ^ 1])]) + right[2:],
        lambda: changed(rng, right, 2, 6),
        lambda: right[:2] + rng.randbytes(4) + right[6:],
        lambda: filled(rng, right),
        lambda: s_format(got)[:2] + bytes([rng.choice([0x01, 0x03, 0x05, 0x0F, 0x47, 0xFF])]) + bytes(3),
        lambda: b"\x68" + bytes([6]) + u_format(0x43)[2:] + bytes(2),
    ]
    return rng.choice(ways)()


# ---- requests to the status

RIGHT_METHODS, METHODS = ["GET", "GET", "GET", "HEAD", "POST", "PUT", "DELETE"], ["OPTIONS", "get", "X" * 300, ""]
TARGETS = ["/", "/metrics", "/other", "/?a=b", "/metrics?x", "http://host/metrics", "http://host", "*", "", "//"]
TARGETS += ["/alive", "/health", "/%00", "/" + "a" * 5000, "/../metrics"]
RIGHT_VERSIONS, VERSIONS = ["HTTP/1.1", "HTTP/1.0"], ["HTTP/2", "HTTP/9.9", "http/1.1", ""]
FIELDS = ["Host: a", "A:b", "Accept: */*", "Content-Length: 5", "Transfer-Encoding: chunked"]
WRONG_FIELDS = [": no name", "No colon", "A" * 5000 + ": b", "Tab\t: c", " folded", "A: \x00", "A: \u00e9"]


def random_request(rng: Random) -> tuple[bytes, set[int] | None]:
    """A request, and the codes that may answer it; nothing in their place where any may, or none."""
    method, version = (rng.choice(right if rng.random() < 0.85 else others)
                       for right, others in ((RIGHT_METHODS, METHODS), (RIGHT_VERSIONS, VERSIONS)))
    target = rng.choice(TARGETS)
    fields = [rng.choice(FIELDS) for _ in range(rng.choice([0, 1, 3, 64, 65, 200]))]
    is_right = method in RIGHT_METHODS and version in RIGHT_VERSIONS and target not in ("", "*")
    path = target.removeprefix("http://host").split("?")[0] or "/"
    if len(fields) > 64 or len(target) > 1000:
        wanted = {431}
    elif path not in ("/", "/metrics", "/alive", "/health"):
        wanted = {404}
    elif method not in ("GET", "HEAD"):
        wanted = {405}
    else:
        wanted = {200} if path in ("/", "/metrics") else {200, 503}
    if rng.random() < 0.3:
        fields.insert(rng.randrange(len(fields) + 1), rng.choice(WRONG_FIELDS))
        is_right = False
    octets = "\r\n".join([f"{method} {target} {version}", *fields, "", ""]).encode("latin-1")
    if rng.random() < 0.3:
        ways = [lambda: changed(rng, octets), lambda: cut(rng, octets), lambda: filled(rng, octets), lambda: noise(rng)]
        octets, is_right = rng.choice(ways)(), False
    return octets, wanted if is_right else None


# ---- settings

VALUES = ["0", "1", "-1", "65535", "65536", "9223372036854775807", "9223372036854775808", "1.0", "nan", "true", "false"]
VALUES += ['""', '"single"', '"scaled"', '"binary"', '"direct"', '"\\u0000"', '"\\q"', "'a'", '"""a"""', "[]", "{}"]
VALUES += ['"CET-1CEST,M3.5.0,M10.5.0/3"', '"<+03>-3"', '"CET-1CEST"', '"CET-1CEST,M3.6.0,M10.5.0/168"']
VALUES += ["{a = 1}", "=", "\x00", "1979-05-27", "07:32:00", "0x1F", "0o7", "0b1", "1_0", "01", "+1", "1e3", "-0"]
HEADS = ["[station]", "[[station]]", "[point]", "[[point]]", "[[control]]", "[[outstation]]", "[outstation.a]"]
HEADS += ["[[other]]", "[", "[[point]", "[[]]", "[a.b.c]", "[station.k]"]
LINES = ["floats = true", "k = 5", "w = 13", "t2_ms = 15000", "num = 1", "den = 32768", 'rest = "latch"', "a.b = 1", ""]
LINES += ['rule = "EST5EDT,M3.2.0,M11.1.0"', 'rule = "x"', "rule = 1"]
LINES += ["# a", " = 1", '"quoted key" = 1', '"" = 1', "k", "\t", "\x0c", "select = true", "address = 1", "index = 0"]


def edge(rng: Random, key: str) -> str:
    """A value at the end of what a key may have, or one beyond."""
    allowed = rng.choice([keys[key][0] for keys in KEYS.values() if key in keys] or [(0, 1)])
    if isinstance(allowed, list):
        return f'"{rng.choice(allowed)}"'
    ends = allowed if isinstance(allowed, tuple) else (0, 1)
    return rng.choice([str(it + rng.choice([-1, 0, 1])) for it in ends if isinstance(it, int)])


def with_line(rng: Random, lines: list[str]) -> list[str]:
    """One line is changed: its value, its key; or it is left out, doubled, moved; or there is one more."""
    place = rng.randrange(len(lines))
    line, value = lines[place], rng.choice(VALUES)
    key = line.split("=")[0].strip() or "k"
    ways = [[f"{key} = {value}"]] * 4 + [[f"{key} = {edge(rng, key)}"]] * 8 if " = " in line else [[line, value]]
    ways += [[f"{key}_ = 1"], [], [line, line], [rng.choice(HEADS)], [line, rng.choice(LINES)]]
    ways += [[line.replace(" = ", rng.choice(["=", ".", " = = ", " "]), 1)], [line + rng.choice([" # c", " 1", ","])]]
    return lines[:place] + rng.choice(ways) + lines[place + 1 :]


def large_settings(rng: Random) -> str:
    """Settings of many entries, long texts or deep brackets."""
    count = rng.choice([33, 1000])
    return rng.choice([
        "[station]\ncommon_address = 1\n" + "[[outstation]]\naddress = 1\n" * count,
        "[station]\ncommon_address = 1\nlisten = \"" + "a" * rng.choice([1000, 100_000]) + '"\n',
        "a = " + rng.choice(["[", "{a="]) * rng.choice([10, 100, 1000, 100_000]),
        "[" + "a." * rng.choice([10, 1000]) + "b]\n",
        "".join(f"k{it} = {it}\n" for it in range(count)),
    ])


def wrong_settings(rng: Random, text: str) -> bytes:
    """The octets of settings with one thing wrong, seldom more, or none."""
    if rng.random() < 0.03:
        return large_settings(rng).encode()
    lines = text.split("\n")
    for _ in range(rng.choice([0, 1, 1, 1, 1, 2, 5])):
        lines = with_line(rng, lines) or [""]
    octets = "\n".join(lines).encode()
    if rng.random() < 0.15 and octets:
        octets = rng.choice([changed, cut, filled])(rng, octets)
    return octets


# ---- lines of `translate` and `replay`


def wrong_hex(rng: Random, octets: bytes) -> bytes:
    """Octets as a line, now and then with something that isn't right in such a line."""
    line = octets.hex(" ").upper().encode()
    if rng.random() < 0.9 or not line:
        return line
    ways = [lambda: changed(rng, line), lambda: cut(rng, line), lambda: line + b" ", lambda: b" " + line, line.lower]
    ways += [lambda: line.replace(b" ", rng.choice([b"  ", b"\t", b"", b"\r"]), 1), lambda: line + b"\r"]
    ways += [lambda: line * rng.choice([2, 50])]
    return rng.choice(ways)().replace(b"\n", b" ")


def wrong_step(rng: Random, line: str) -> str:
    """A line of a replay with one thing wrong."""
    words = line.split(" ")
    place = rng.randrange(len(words))
    word = rng.choice(["", "0", "8", "31", "32", "255", "256", "00", "-1", "x", "FF", str(LARGEST), str(LARGEST + 1)])
    ways = [lambda: " ".join(words[:place] + [word] + words[place + 1 :]), lambda: " ".join(words[:place]),
            lambda: " ".join(words[:place] + [words[place]] + words[place:]), lambda: rng.choice(NO_LINES),
            lambda: line + rng.choice([" ", " 0", "\r", " 00"])]
    return rng.choice(ways)().replace("\n", " ")
