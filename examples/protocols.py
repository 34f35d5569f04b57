"""Octets of DNP3 (IEEE Std 1815-2012) and of IEC 60870-5-104 and -101, as the examples beside this file write and read them.

Nothing here knows a socket or a clock. The peers that judge the gateway in its tests (checks/peers.py) have octets of their
own, so that what judges it shares no slip with an example; `checks/example_octets` compares the two.
"""
import struct
from enum import IntEnum, IntFlag
from typing import NamedTuple


class ProtocolError(Exception):
    """A peer's octets aren't what the protocol wants; the text says why."""


# DNP3: the data link layer (clause 9) and the transport function (clause 8).

# The octets of user data in a block, of a fragment in a segment, and of the longest fragment.
BLOCK, SEGMENT, LONGEST = 16, 249, 2048
FROM_OUTSTATION, ACK, LINK_STATUS, NOT_SUPPORTED = 0x44, 0x00, 0x0B, 0x0F
PRIMARY = 0x40
RESET_LINK, TEST_LINK, CONFIRMED_DATA, DATA, ASK_STATUS = 0, 2, 3, 4, 9


def divided(register):
    """A register of the CRC behind eight bits, the least first."""
    for _ in range(8):
        register = register >> 1 ^ (0xA6BC if register & 1 else 0)
    return register


DIVIDED = [divided(octet) for octet in range(256)]


def crc(octets):
    """The CRC of a block."""
    register = 0
    for octet in octets:
        register = register >> 8 ^ DIVIDED[(register ^ octet) & 0xFF]
    return struct.pack("<H", register ^ 0xFFFF)


def frame(control, destination, source, user=b""):
    header = struct.pack("<BBBBHH", 0x05, 0x64, 5 + len(user), control, destination, source)
    blocks = [header, *(user[at : at + BLOCK] for at in range(0, len(user), BLOCK))]
    return b"".join(block + crc(block) for block in blocks)


class Frame(NamedTuple):
    control: int
    destination: int
    source: int
    user: bytes


class Frames:
    """The frames of a stream, one after another. Octets that are none end it: over TCP nothing is lost on the way."""

    def __init__(self):
        self.octets = bytearray()

    def next(self):
        """The next frame, or nothing as long as it isn't whole."""
        header = bytes(self.octets[:10])
        if header[:2] != b"\x05\x64"[: len(header)]:
            raise ProtocolError("this isn't DNP3")
        if len(header) < 10:
            return None
        length = header[2] - 5
        if crc(header[:8]) != header[8:] or length < 0:
            raise ProtocolError("a frame with a wrong CRC or length")
        end = 10 + length + 2 * ((length + BLOCK - 1) // BLOCK)
        if len(self.octets) < end:
            return None
        blocks = [bytes(self.octets[at : min(at + BLOCK + 2, end)]) for at in range(10, end, BLOCK + 2)]
        if any(crc(block[:-2]) != block[-2:] for block in blocks):
            raise ProtocolError("a frame with a wrong CRC")
        del self.octets[:end]
        return Frame(*struct.unpack_from("<BHH", header, 3), b"".join(block[:-2] for block in blocks))


def segments(fragment, first):
    """The segments of a fragment, of which the first has this number: FIN is bit 7 of an octet in front, FIR bit 6."""
    pieces = [fragment[at : at + SEGMENT] for at in range(0, len(fragment), SEGMENT)]
    last = len(pieces) - 1
    return [bytes([(place == last) << 7 | (place == 0) << 6 | (first + place) % 64]) + piece
            for place, piece in enumerate(pieces)]


class Assembler:
    """The fragments of segments. One that doesn't follow on is dropped, with those before it."""

    def __init__(self):
        self.octets, self.number = b"", None

    def take(self, segment):
        """The fragment that ends with this segment, if one does."""
        if not segment:
            return None
        number, is_first, is_last = segment[0] % 64, segment[0] & 0x40, segment[0] & 0x80
        if is_first:
            self.octets = b""
        elif number != self.number:
            self.number = None
            return None
        self.octets, self.number = self.octets + segment[1:], (number + 1) % 64
        if len(self.octets) > LONGEST:
            self.number = None
        if not is_last or self.number is None:
            return None
        self.number = None
        return self.octets


# DNP3: the application layer (clause 4) and its objects (Annex A).

# Bits of the application control octet (4.2.2.4); its low four are the sequence number.
FIR, FIN, CON, UNS = 0x80, 0x40, 0x20, 0x10


class Function(IntEnum):
    CONFIRM = 0
    READ = 1
    WRITE = 2
    SELECT = 3
    OPERATE = 4
    DIRECT_OPERATE = 5
    ENABLE_UNSOLICITED = 20
    DISABLE_UNSOLICITED = 21
    RECORD_CURRENT_TIME = 24
    RESPONSE = 129
    UNSOLICITED_RESPONSE = 130


class Indication(IntFlag):
    """Internal indications (4.2.2.6): IIN1 is the low octet, which comes first."""

    CLASS_1 = 0x0002
    CLASS_2 = 0x0004
    CLASS_3 = 0x0008
    NEED_TIME = 0x0010
    LOCAL_CONTROL = 0x0020
    RESTART = 0x0080
    NO_FUNCTION = 0x0100
    OBJECT_UNKNOWN = 0x0200
    PARAMETER_ERROR = 0x0400
    OVERFLOW = 0x0800


# Flags of all kinds of points; what an octet of flags has besides is the value, or told of one kind alone.
FLAGS = {"online": 0x01, "restart": 0x02, "comm_lost": 0x04, "remote_forced": 0x08, "local_forced": 0x10}
ONLINE = FLAGS["online"]
# Control status codes (Annex A, group 12).
STATUSES = {0: "success", 1: "timeout", 2: "no select", 3: "format error", 4: "not supported", 5: "already active",
            6: "hardware error", 7: "local", 8: "too many operations", 9: "not authorized", 10: "automation inhibit",
            11: "processing limited", 12: "out of range", 126: "non-participating", 127: "undefined"}
# The octets of an object in a request; those of groups 60 and 80 are none, or bits.
REQUESTED = {(12, 1): 11, (41, 2): 3, (50, 1): 6, (50, 3): 6, (60, 1): 0, (60, 2): 0, (60, 3): 0, (60, 4): 0, (80, 1): None}
# What stands behind group, variation and qualifier: a range or a count, of 8 or 16 bits; and the octets of an index in front
# of each object. Behind 06 nothing stands.
QUALIFIERS = {0x00: ("<BB", 0), 0x01: ("<HH", 0), 0x06: ("<", 0), 0x07: ("<B", 0), 0x08: ("<H", 0), 0x17: ("<B", 1),
              0x28: ("<H", 2)}


class Header(NamedTuple):
    """An object header of a request with its objects, indexes included; `first` is the first of a range."""

    group: int
    variation: int
    qualifier: int
    first: int
    count: int
    objects: bytes


def read_headers(octets):
    """The object headers of a request."""
    headers, at = [], 0
    while at < len(octets):
        if len(octets) < at + 3:
            raise ProtocolError("an object header is cut off")
        group, variation, qualifier = octets[at : at + 3]
        if (group, variation) not in REQUESTED or qualifier not in QUALIFIERS:
            raise LookupError(f"group {group} variation {variation} with qualifier {qualifier:02X}")
        form, prefix = QUALIFIERS[qualifier]
        begin = at + 3 + struct.calcsize(form)
        if len(octets) < begin:
            raise ProtocolError("an object header is cut off")
        first, count = span(struct.unpack_from(form, octets, at + 3))
        size = REQUESTED[group, variation]
        at = begin + ((count + 7) // 8 if size is None else count * (prefix + size) if size else 0)
        if count < 0 or at > len(octets):
            raise ProtocolError("objects are cut off")
        headers.append(Header(group, variation, qualifier, first, count, octets[begin:at]))
    return headers


def span(numbers):
    """The first index and the count of a range, of a count or of nothing."""
    if len(numbers) == 2:
        return numbers[0], numbers[1] - numbers[0] + 1
    return 0, numbers[0] if numbers else 0


def range_header(group, variation, start, stop):
    """The header of objects with indexes that follow on."""
    if stop < 256:
        return bytes([group, variation, 0x00, start, stop])
    return struct.pack("<BBBHH", group, variation, 0x01, start, stop)


def count_header(group, variation, count):
    """The header of objects that have their index, of two octets, in front of each."""
    return struct.pack("<BBBH", group, variation, 0x28, count)


def moment_octets(milliseconds):
    """A time: milliseconds since 1970 in UTC, in 48 bits."""
    return milliseconds.to_bytes(6, "little")


# IEC 60870-5-104: APDUs (clause 5).

# Control functions of the U format.
STARTDT, STARTDT_CON, TESTFR, TESTFR_CON = 0x07, 0x0B, 0x43, 0x83
# How many numbers of I formats there are.
NUMBERS = 32768


def apdu(control, asdu=b""):
    return bytes([0x68, 4 + len(asdu)]) + control + asdu


def u_format(function):
    return apdu(bytes([function, 0, 0, 0]))


def s_format(received):
    return apdu(struct.pack("<HH", 1, received * 2))


def i_format(sent, received, asdu):
    return apdu(struct.pack("<HH", sent * 2, received * 2), asdu)


class Apdus:
    """The APDUs of a stream, one after another: the four control octets, and the ASDU of an I format."""

    def __init__(self):
        self.octets = bytearray()

    def next(self):
        """The next APDU, or nothing as long as it isn't whole."""
        if len(self.octets) < 2:
            return None
        start, length = self.octets[:2]
        if start != 0x68 or not 4 <= length <= 253:
            raise ProtocolError("this isn't IEC 60870-5-104")
        if len(self.octets) < 2 + length:
            return None
        octets = bytes(self.octets[2 : 2 + length])
        del self.octets[: 2 + length]
        return octets[:4], octets[4:]


# IEC 60870-5-101: ASDUs (7.1 to 7.3), with the sizes that -104 gives them: a cause of two octets, a common address of two and
# an information object address of three.

# Common address of all stations (7.2.4).
ALL_STATIONS = 65535
# Causes of transmission (7.2.3); P/N is bit 6.
REQUEST, ACTIVATION, CONFIRMATION, TERMINATION = 5, 6, 7, 10
# Type identifications in control direction (7.2.1).
SINGLE_COMMAND, DOUBLE_COMMAND, SET_POINT, INTERROGATION, COUNTERS, READ = 45, 46, 49, 100, 101, 102
# S/E: select, else execute (7.2.6.26, 7.2.6.39).
SELECT = 0x80
# Bits of a quality descriptor (7.2.6.3); of a binary counter reading (7.2.6.9).
QUALITIES = {0x10: "blocked", 0x20: "substituted", 0x40: "not topical", 0x80: "invalid"}
MEASURED = {0x01: "overflow", **QUALITIES}
COUNTED = {0x20: "carry", 0x40: "counter was adjusted", 0x80: "invalid"}
STATES = ("intermediate", "off", "on", "indeterminate")


class Asdu(NamedTuple):
    """The data unit identifier of an ASDU, and what stands behind it."""

    kind: int
    count: int
    is_sequence: bool
    cause: int
    is_negative: bool
    common: int
    rest: bytes


def read_asdu(octets):
    if len(octets) < 6:
        raise ProtocolError("an ASDU is cut off")
    kind, qualifier, cause, _, common = struct.unpack_from("<BBBBH", octets)
    return Asdu(kind, qualifier & 127, qualifier >= 128, cause & 63, bool(cause & 64), common, octets[6:])


def write_asdu(kind, cause, common, address, element=b""):
    """An ASDU of one information object; the originator is 0."""
    return struct.pack("<BBBBH", kind, 1, cause, 0, common) + address.to_bytes(3, "little") + element


def words(bits, names):
    return [name for bit, name in names.items() if bits & bit]


# Each reads an information element (7.2.6): its value in words, and what is wrong with its quality.


def single_point(element):
    return "on" if element[0] & 1 else "off", words(element[0], QUALITIES)


def double_point(element):
    return STATES[element[0] & 3], words(element[0], QUALITIES)


def bit_string(element):
    return element[3::-1].hex(), words(element[4], MEASURED)


def scaled_value(element):
    return str(struct.unpack_from("<h", element)[0]), words(element[2], MEASURED)


def integrated_total(element):
    return str(struct.unpack_from("<i", element)[0]), words(element[4], COUNTED)


# Types of process information (7.3.1): the octets of an element, what reads it, whether seven octets of time follow.
TYPES = {1: (1, single_point, False), 3: (1, double_point, False), 7: (5, bit_string, False), 11: (3, scaled_value, False),
         15: (5, integrated_total, False), 30: (1, single_point, True), 31: (1, double_point, True), 33: (5, bit_string, True),
         35: (3, scaled_value, True), 37: (5, integrated_total, True)}


class Reading(NamedTuple):
    """An information object of process information, in words."""

    address: int
    name: str
    value: str
    doubts: list
    time: str


def time_tag(octets):
    """A time of seven octets, CP56Time2a (7.2.6.18), in words; SU is the summer time bit."""
    milliseconds, minute, hour, day, month, year = struct.unpack("<HBBBBB", octets)
    clock = f"{hour & 31:02}:{minute & 63:02}:{milliseconds // 1000:02}.{milliseconds % 1000:03}"
    notes = [note for bit, note in ((hour & 0x80, "summer time"), (minute & 0x80, "in doubt")) if bit]
    return f"20{year & 127:02}-{month & 15:02}-{day & 31:02} {clock}" + (f" ({', '.join(notes)})" if notes else "")


def readings(asdu):
    """The information objects of an ASDU of process information."""
    size, read, has_time = TYPES[asdu.kind]
    size, rest, address, found = size + 7 * has_time, asdu.rest, None, []
    for _ in range(asdu.count):
        # With SQ the first object alone has an address, and those behind it follow on (7.2.2).
        if address is None or not asdu.is_sequence:
            address, rest = int.from_bytes(rest[:3], "little"), rest[3:]
        else:
            address += 1
        if len(rest) < size:
            raise ProtocolError("an ASDU is cut off")
        value, doubts = read(rest[:size])
        tag = time_tag(rest[size - 7 : size]) if has_time else ""
        found.append(Reading(address, read.__name__.replace("_", " "), value, doubts, tag))
        rest = rest[size:]
    return found
