"""The gateway's peers over the loopback: outstations of IEEE Std 1815 and control centres of IEC 60870-5-104.

They judge each octet that comes, and raise `Difference` where it isn't what is wanted.
"""
import queue
import re
import select
import socket
import struct
import threading
import time
from collections import deque
from collections.abc import Callable
from contextlib import suppress
from typing import Protocol

from framing import BLOCK, MASTER, MASTER_USER_DATA, frame, i_format, s_format, segments, spelled, u_format

HOST = "127.0.0.1"
# How many seconds a peer waits for what it wants.
PATIENCE = 5
# The octets of small segments of TCP.
SMALL_SEGMENT = 400

# Requests behind their control octet.
EVENTS = bytes.fromhex("01 3C 02 06 3C 03 06 3C 04 06")
INTEGRITY = EVENTS + bytes.fromhex("3C 01 06")
DISABLE, ENABLE = (bytes([function]) + EVENTS[1:] for function in (0x15, 0x14))
# The functions of requests that operate an output.
SELECT, OPERATE, DIRECT_OPERATE = 3, 4, 5

# The acts of U formats, each with its confirmation.
START, START_CON, STOP, STOP_CON, TEST, TEST_CON = (spelled(u_format(it)) for it in (0x07, 0x0B, 0x13, 0x23, 0x43, 0x83))

# Causes of transmission.
NEWS, REQUESTED, ACTIVATION, CONFIRMATION, TERMINATION, INTERROGATED, COUNTERS = 3, 5, 6, 7, 10, 20, 37
# Of a deactivation and its confirmation, and P/N, with which a confirmation is negative.
CANCEL, CANCELLED, NEGATIVE = 8, 9, 0x40
# The front of the witness's events, of analog input 9; where this point is, the seconds between events, and how many
# I formats it acknowledges at once.
WITNESS_EVENT = bytes.fromhex("20 01 17 01 09 01")
WITNESSED, WITNESS_EVERY, WITNESS_W = 9001, 0.05, 4

# A line of standard error: the priority for a journal, the time, and what is told.
NOTE = re.compile(r"(<\d>)?(\d{4}-\d\d-\d\dT\d\d:\d\d:\d\d\.\d{3})Z (.+)")
# How many octets an object of each type of process information has behind its address.
ELEMENTS = {1: 1, 3: 1, 7: 5, 11: 3, 15: 5, 30: 8, 31: 8, 33: 12, 35: 10, 37: 12}


class Difference(Exception):
    """Something isn't as it is wanted."""


class Ended(Difference):
    """The end of input came where octets are wanted."""


def same(what: str, got: object, wanted: object) -> None:
    if got != wanted:
        raise Difference(f"{what}: wanted {wanted}, got {got}")


def same_octets(what: str, got: bytes, wanted: bytes) -> None:
    same(what, spelled(got), spelled(wanted))


def narrow(socket_of_peer: socket.socket, room: int) -> None:
    """Gives a peer a receive buffer of this room, and small segments, which keep the gateway's buffer small too."""
    socket_of_peer.setsockopt(socket.SOL_SOCKET, socket.SO_RCVBUF, room)
    socket_of_peer.setsockopt(socket.IPPROTO_TCP, socket.TCP_MAXSEG, SMALL_SEGMENT)


def free_place() -> str:
    """An address where nobody listens."""
    with socket.create_server((HOST, 0)) as server:
        return f"{HOST}:{server.getsockname()[1]}"


class Line:
    """A connection, whose octets are wanted by their number."""

    def __init__(self, connection: socket.socket) -> None:
        connection.settimeout(PATIENCE)
        connection.setsockopt(socket.IPPROTO_TCP, socket.TCP_NODELAY, 1)
        self.connection = connection

    def write(self, octets: bytes, apart: float | None = None) -> None:
        """Sends octets: in one piece, or one by one, so many seconds apart."""
        for piece in [octets] if apart is None else [bytes([it]) for it in octets]:
            self.connection.sendall(piece)
            time.sleep(apart or 0)

    def read(self, count: int) -> bytes:
        octets = b""
        while len(octets) < count:
            try:
                piece = self.connection.recv(count - len(octets))
            except TimeoutError:
                raise Difference(f"wanted {count} octets, got {spelled(octets) or 'none'} in {PATIENCE} s") from None
            if not piece:
                raise Ended(f"wanted {count} octets, got {spelled(octets) or 'none'} and the end of input")
            octets += piece
        return octets

    def quiet(self, seconds: float) -> None:
        """Nothing comes for so long."""
        if select.select([self.connection], [], [], seconds)[0]:
            raise Difference(f"wanted nothing, got {spelled(self.connection.recv(99)) or 'the end of input'}")

    def rest(self) -> bytes:
        """What comes up to the end of input."""
        octets = bytearray()
        while piece := self.connection.recv(65536):
            octets += piece
        return bytes(octets)

    def leave(self) -> None:
        """Sends nothing more, and closes once the other end has closed."""
        self.connection.shutdown(socket.SHUT_WR)
        self.rest()
        self.connection.close()

    def reset(self) -> None:
        self.connection.setsockopt(socket.SOL_SOCKET, socket.SO_LINGER, struct.pack("ii", 1, 0))
        self.connection.close()


def response(number: int, objects: bytes = b"", con: bool = False, iin: int = 0, iin2: int = 0) -> bytes:
    """The answer to the request of this number; `iin` and `iin2` are its indications."""
    return bytes([0xC0 | (0x20 if con else 0) | number % 16, 0x81, iin, iin2]) + objects


def unsolicited(number: int, objects: bytes) -> bytes:
    """An unsolicited response that asks for a confirmation."""
    return bytes([0xF0 | number % 16, 0x82, 0, 0]) + objects


def latch(index: int, on: bool, status: int = 0) -> bytes:
    """The object of a request that latches an output (group 12), or of its echo with this status."""
    return bytes.fromhex("0C 01 28 01 00") + struct.pack("<HBBIIB", index, 3 if on else 4, 1, 0, 0, status)


def analog(index: int, value: int, status: int = 0) -> bytes:
    """The same of a request that sets an analog output (group 41)."""
    return bytes.fromhex("29 02 28 01 00") + struct.pack("<HhB", index, value, status)


def confirmation(fragment: bytes) -> bytes:
    return bytes([0xC0 | fragment[0] & 0x1F, 0])


class Link(Line):
    """The master's connection to an outstation."""

    # When it was told that it stands.
    began: float

    def __init__(self, connection: socket.socket, address: int) -> None:
        super().__init__(connection)
        self.address, self.came, self.sent = address, 0, 0

    def frame(self) -> tuple[int, bytes]:
        """The control octet and the user data of the next frame. All its other octets are what they have to be."""
        header = self.read(10)
        length = max(header[2] - 5, 0)
        body = self.read(length + 2 * ((length + BLOCK - 1) // BLOCK))
        blocks = [body[begin : begin + BLOCK + 2] for begin in range(0, len(body), BLOCK + 2)]
        user = b"".join(block[:-2] for block in blocks)
        same_octets("a frame", header + body, frame(user, header[3], self.address, MASTER))
        return header[3], user

    def fragment(self) -> bytes:
        """The next fragment. All that the master sends is one segment, and they are numbered from 0."""
        control, user = self.frame()
        front = bytes([MASTER_USER_DATA, 0xC0 | self.came % 64])
        same_octets("CONTROL and the transport header", bytes([control]) + user[:1], front)
        self.came += 1
        return user[1:]

    def wants(self, octets: bytes) -> None:
        same_octets("a fragment of the master", self.fragment(), octets)

    def request(self, number: int, request: bytes) -> None:
        """The next fragment is this request, of this number."""
        self.wants(bytes([0xC0 | number % 16]) + request)

    def operated(self, number: int, function: int, objects: bytes, answer: bytes | None = None) -> None:
        """The next fragment operates outputs, and is answered by its echo, or by this."""
        self.request(number, bytes([function]) + objects)
        self.send(response(number, objects if answer is None else answer))

    def frames(self, fragment: bytes) -> list[bytes]:
        """The frames of the next fragment that is sent."""
        carried = segments(fragment, self.sent)
        self.sent += len(carried)
        return [frame(segment, source=self.address) for segment in carried]

    def send(self, fragment: bytes, apart: float | None = None) -> None:
        self.write(b"".join(self.frames(fragment)), apart)

    def confirmed(self, fragment: bytes) -> None:
        """Sends a fragment, which is confirmed."""
        self.send(fragment)
        self.wants(confirmation(fragment))

    def answer_all(self) -> None:
        """Answers each request with no object, until the master closes the connection."""
        self.connection.settimeout(None)
        with suppress(Ended, OSError):
            while True:
                self.send(response(self.fragment()[0] & 0x0F))


class Outstation:
    """Where the outstation of this number is reached. It listens from the beginning, or when it is told to; `room` is
    that of its receive buffer, and `host` where it listens."""

    def __init__(self, number: int, listens: bool = True, room: int | None = None, host: str = HOST) -> None:
        self.number, self.address, self.listener = number, number + 1, socket.socket()
        if room:
            narrow(self.listener, room)
        self.listener.bind((host, 0))
        self.listener.settimeout(PATIENCE)
        self.place = f"{host}:{self.listener.getsockname()[1]}"
        if listens:
            self.listener.listen()

    @property
    def name(self) -> str:
        """What standard error calls it."""
        return f"outstation {self.number} {self.place}"

    @property
    def labels(self) -> str:
        """What its figures have in the status."""
        return f'outstation="{self.number}",place="{self.place}",target="{self.place}"'

    def accept(self) -> Link:
        return Link(self.listener.accept()[0], self.address)


def asdu(kind: int, cause: int, address: int, element: str) -> bytes:
    """An ASDU of one object."""
    return bytes([kind, 1, cause, 0, 1, 0]) + address.to_bytes(3, "little") + bytes.fromhex(element)


def under(common: int, octets: bytes) -> bytes:
    """An ASDU under another common address."""
    return octets[:4] + common.to_bytes(2, "little") + octets[6:]


def each_alone(octets: bytes) -> list[bytes]:
    """The ASDUs of one object each that say the same: of process information, whatever went together. What comes back,
    and what is of another type, has one object."""
    kind, count, cause = octets[0], octets[1] & 0x7F, octets[2] & 0x3F
    if kind not in ELEMENTS or cause > COUNTERS:
        return [octets]
    front, size, is_sequence = bytes([kind, 1]) + octets[2:6], ELEMENTS[kind], octets[1] & 0x80
    same(f"the length of {spelled(octets)}", len(octets), 9 + count * size if is_sequence else 6 + count * (3 + size))
    if not is_sequence:
        return [front + octets[begin : begin + 3 + size] for begin in range(6, len(octets), 3 + size)]
    first = int.from_bytes(octets[6:9], "little")
    return [
        front + (first + n).to_bytes(3, "little") + octets[9 + n * size : 9 + (n + 1) * size] for n in range(count)
    ]


def general(cause: int) -> bytes:
    return asdu(100, cause, 0, "14")


def counters(cause: int) -> bytes:
    return asdu(101, cause, 0, "05")


class Centre(Line):
    """A control centre, which connects from this host; `room` is that of its receive buffer."""

    # What standard error calls it, and the number of its place.
    name: str
    place: str

    def __init__(self, port: int, host: str = HOST, room: int | None = None) -> None:
        connection = socket.socket()
        if host != HOST:
            connection.bind((host, 0))
        if room:
            narrow(connection, room)
        connection.settimeout(PATIENCE)
        connection.connect((HOST, port))
        super().__init__(connection)
        self.address = f"{host}:{connection.getsockname()[1]}"
        self.sent, self.got, self.acknowledged, self.writing = 0, 0, 0, threading.Lock()
        # What is left of the last I format, an ASDU for each object.
        self.alone = deque()

    def send(self, text: str) -> None:
        self.write(bytes.fromhex(text))

    def apdu(self) -> bytes:
        front = self.read(2)
        return front + self.read(front[1])

    def wants(self, text: str) -> None:
        same("an APDU", spelled(self.apdu()), text)

    def start(self) -> None:
        self.send(START)
        self.wants(START_CON)
        self.alone.clear()

    def ask(self, octets: bytes, apart: float | None = None, got: int | None = None) -> None:
        """Sends an I format, which acknowledges all that came, or as much as this."""
        with self.writing:
            self.sent += 1
            self.write(i_format(self.sent - 1, self.got if got is None else got, octets), apart)

    def acknowledge(self) -> None:
        with self.writing:
            self.write(s_format(self.got))

    def asdu(self) -> bytes:
        """An ASDU of the next object: of the last I format, or of the next APDU, which is one with the next N(S), and an
        N(R) that can be."""
        if self.alone:
            return self.alone.popleft()
        apdu = self.apdu()
        sent, got = struct.unpack_from("<HH", apdu, 2)
        same(f"N(S) of {spelled(apdu)}", sent, self.got * 2 & 0xFFFF)
        if got & 1 or not self.acknowledged <= got // 2 <= self.sent:
            raise Difference(f"N(R) of {spelled(apdu)}: wanted {self.acknowledged} to {self.sent}")
        self.acknowledged = got // 2
        self.got += 1
        self.alone.extend(each_alone(apdu[6:]))
        return self.alone.popleft()

    def takes(self, *asdus: bytes) -> None:
        """The next objects are those of these ASDUs, and their I formats acknowledge all that was sent."""
        for octets in asdus:
            if not self.alone:
                apdu = self.apdu()
                same_octets("an APDU", apdu[:6], i_format(self.got, self.sent, apdu[6:])[:6])
                self.got += 1
                self.alone.extend(each_alone(apdu[6:]))
            same_octets("an object", self.alone.popleft(), octets)

    def interrogate(self, *rows: bytes, apart: float | None = None) -> None:
        """A station interrogation is answered with these rows."""
        self.ask(general(ACTIVATION), apart)
        self.takes(general(CONFIRMATION), *rows, general(TERMINATION))
        self.acknowledge()


class Kept(Protocol):
    """Where ASDUs are put for whoever wants them."""

    def put(self, octets: bytes) -> None: ...


class Witness:
    """An outstation and a control centre that are served all the while: the one tells events, the other gets each of
    them, in order. What else it gets waits for whoever wants it."""

    def __init__(self, link: Link, centre: Centre, others: Kept | None = None) -> None:
        self.link, self.centre, self.others = link, centre, others or queue.SimpleQueue()
        self.times, self.delays, self.last, self.fault = [], [], None, None
        self.ending = threading.Event()
        self.threads = [threading.Thread(target=self.watch, args=[it], daemon=True) for it in (self.tell, self.listen)]
        for thread in self.threads:
            thread.start()

    def watch(self, work: Callable[[], None]) -> None:
        """Does the work of a thread, and keeps what goes wrong there."""
        try:
            work()
        except (Difference, OSError) as fault:
            self.fault = self.fault or fault

    def tell(self) -> None:
        while self.last is None:
            is_last = self.ending.wait(WITNESS_EVERY)
            self.times.append(time.monotonic())
            self.last = len(self.times) if is_last else None
            event = unsolicited(len(self.times), WITNESS_EVENT + len(self.times).to_bytes(4, "little"))
            self.link.send(event)
            while (fragment := self.link.fragment()) != confirmation(event):
                is_order = fragment[1] in (SELECT, OPERATE, DIRECT_OPERATE)
                self.link.send(response(fragment[0] & 0x0F, fragment[2:] if is_order else b""))

    def listen(self) -> None:
        while len(self.delays) != self.last:
            octets = self.centre.asdu()
            if not self.centre.alone and self.centre.got % WITNESS_W == 0:
                self.centre.acknowledge()
            if octets[6:9] != WITNESSED.to_bytes(3, "little"):
                self.others.put(octets)
            elif octets[2] == NEWS:
                seen = len(self.delays)
                value = (seen + 1).to_bytes(4, "little")
                same_octets("news of the witness", octets, asdu(7, NEWS, WITNESSED, spelled(value) + "00"))
                self.delays.append(time.monotonic() - self.times[seen])

    def takes(self, *asdus: bytes) -> None:
        """These are the next ASDUs of other points."""
        for octets in asdus:
            try:
                same_octets("an ASDU", self.others.get(timeout=PATIENCE), octets)
            except queue.Empty:
                raise self.fault or Difference(f"wanted an ASDU {spelled(octets)}, got none in {PATIENCE} s") from None

    def interrogate(self, *rows: bytes) -> None:
        self.centre.ask(general(ACTIVATION))
        self.takes(general(CONFIRMATION), *rows, general(TERMINATION))

    def end(self, limit: float) -> None:
        """Each event came, within so many seconds."""
        self.ending.set()
        for thread in self.threads:
            thread.join(PATIENCE)
        if self.fault:
            raise self.fault
        same("events that the witness got", len(self.delays), len(self.times))
        if not self.delays or max(self.delays) > limit:
            slowest = max(self.delays, default=0)
            raise Difference(f"the slowest event of the witness: wanted {limit} s, got {slowest:.3f} s")

    def finish(self, limit: float) -> None:
        """The same, and nothing else is left."""
        self.end(limit)
        same("ASDUs that nobody wanted", self.others.qsize(), 0)
