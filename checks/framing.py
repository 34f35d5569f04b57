"""What carries both protocols: link frames of DNP3 with their CRCs, and the segments in them (IEEE Std 1815, clauses 9 and 8);
and APDUs (IEC 60870-5-104, clause 5)."""
import struct

# The link address of the master.
MASTER = 1024
# The octets of a fragment in a segment, and of user data in a block.
SEGMENT, BLOCK = 249, 16
# CONTROL of user data without confirmation, from an outstation and from a master.
USER_DATA, MASTER_USER_DATA = 0x44, 0xC4


def spelled(octets: bytes) -> str:
    return octets.hex(" ").upper()


# ---- DNP3


def divided(register: int) -> int:
    """A register after eight bits, by x^16 + x^13 + x^12 + x^11 + x^10 + x^8 + x^6 + x^5 + x^2 + 1, least bit first."""
    for _ in range(8):
        register = (register >> 1) ^ (0xA6BC if register & 1 else 0)
    return register


# For each octet, the register that starts with it, after its bits.
DIVIDED = [divided(octet) for octet in range(256)]


def crc(octets: bytes) -> bytes:
    """The CRC of a block, inverted."""
    register = 0
    for octet in octets:
        register = (register >> 8) ^ DIVIDED[(register ^ octet) & 0xFF]
    return (register ^ 0xFFFF).to_bytes(2, "little")


def sealed(header: bytes, user: bytes) -> bytes:
    """A frame with these eight octets, whatever they say, and right CRCs."""
    blocks = [header] + [user[begin : begin + BLOCK] for begin in range(0, len(user), BLOCK)]
    return b"".join(block + crc(block) for block in blocks)


def frame(user: bytes, control: int = USER_DATA, destination: int = MASTER, source: int = 1) -> bytes:
    return sealed(struct.pack("<BBBBHH", 0x05, 0x64, 5 + len(user), control, destination, source), user)


def segments(fragment: bytes, first: int) -> list[bytes]:
    """The segments of a fragment, whose numbers begin with this one."""
    pieces = [fragment[begin : begin + SEGMENT] for begin in range(0, len(fragment), SEGMENT)]
    carried = []
    for place, piece in enumerate(pieces):
        bits = (0x40 if place == 0 else 0) | (0x80 if place == len(pieces) - 1 else 0)
        carried.append(bytes([bits | (first + place) % 64]) + piece)
    return carried


# ---- IEC 60870-5-104


def i_format(sent: int, got: int, octets: bytes) -> bytes:
    """The APDU of an ASDU, with N(S) and N(R)."""
    return bytes([0x68, 4 + len(octets)]) + struct.pack("<HH", sent * 2 & 0xFFFF, got * 2 & 0xFFFF) + octets


def s_format(got: int) -> bytes:
    """The APDU that acknowledges by N(R)."""
    return bytes([0x68, 4, 1, 0]) + struct.pack("<H", got * 2 & 0xFFFF)


def u_format(octet: int) -> bytes:
    """The APDU whose first control octet is this one."""
    return bytes([0x68, 4, octet, 0, 0, 0])
