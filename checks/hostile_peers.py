"""The surfaces that are sockets, played by `checks/fuzz`: hostile outstations and control centres, and requests to the
status."""
import random
import re
import select
import socket
import struct
import time
from collections import Counter, deque
from collections.abc import Collection, Iterable
from contextlib import suppress
from typing import Any

import hostile
from framing import MASTER, MASTER_USER_DATA, frame, i_format, s_format, segments, spelled, u_format
from judges.answers import ClientModel, Found, is_request
from judges.reading import LINK_STATUS, Frame, Receiver, apdu_events, link_events, refusal_of
from peers import HOST, Difference, confirmation
from random_steps import random_asdu
from watched_run import ANSWER_LIMIT, House, patience

# How many seconds behind a request its answer is taken in any case, and the end of what always is so.
ANSWERED_IN, NEVER = 2, float("inf")
# How many inputs a hostile connection has before it is made anew.
MOST_INPUTS = 300


def received(connection: socket.socket, limit: float) -> bytes:
    """What comes on a connection next; nothing at the end of input, or where it was reset."""
    if not select.select([connection], [], [], max(0, limit))[0]:
        raise Difference(f"nothing came in {patience(ANSWER_LIMIT)} s")
    try:
        return connection.recv(65536)
    except OSError:
        return b""


def pieces_of(rng: random.Random, octets: bytes) -> list[bytes]:
    """Octets in one piece mostly, or in several, down to single ones."""
    chance = rng.random()
    if chance < 0.8 or len(octets) < 2:
        return [octets]
    if chance < 0.9 and len(octets) < 600:
        return [octets[it : it + 1] for it in range(len(octets))]
    places = sorted(rng.sample(range(1, len(octets)), min(5, len(octets) - 1)))
    return [octets[first:last] for first, last in zip([0, *places], [*places, len(octets)])]


class HostilePeer:
    """One connection after another, over which inputs go; what went over the last one is kept."""

    def __init__(self, house: House) -> None:
        self.house, self.setup, self.connection, self.inputs, self.seen = house, house.setup, None, [], Counter()

    def leave(self, is_reset: bool = False) -> None:
        if is_reset:
            self.connection.setsockopt(socket.SOL_SOCKET, socket.SO_LINGER, struct.pack("ii", 1, 0))
        self.connection.close()
        self.connection = None

    def begin(self, connection: socket.socket) -> None:
        connection.setsockopt(socket.IPPROTO_TCP, socket.TCP_NODELAY, 1)
        connection.settimeout(patience(ANSWER_LIMIT))
        self.connection, self.inputs, self.rest = connection, [], b""

    def send(self, rng: random.Random, octets: bytes) -> None:
        for piece in pieces_of(rng, octets):
            self.connection.sendall(piece)


class HostileOutstation(HostilePeer):
    """An outstation whose octets are wrong, and what its link and its fragments are owed."""

    def __init__(self, house: House, number: int) -> None:
        super().__init__(house)
        self.outstation = house.outstations[number]

    def connect(self) -> None:
        self.begin(self.outstation.listener.accept()[0])
        self.receiver, self.wanted, self.credit = Receiver(self.outstation.address), deque(), Counter()
        self.came = self.sent = self.unsolicited = 0
        self.awaiting, self.asked, self.request = None, 0.0, b""

    def want(self, brought: int | bytes) -> None:
        """Adds what has to come, or may, for what the model's link brought."""
        if isinstance(brought, int):
            self.wanted.append((bytes([brought]), NEVER))
            return
        why, is_answer = refusal_of(brought), brought[1:2] == b"\x81"
        self.seen[f"refused {why.split(' at ')[0]}" if why else "taken"] += 1
        if why:
            return
        certain_until = NEVER
        if is_answer:
            answers_request = brought[0] & 0x80 and brought[0] & 0x0F == self.awaiting
            certain_until = self.asked + ANSWERED_IN if answers_request else 0
            self.awaiting = None
        if brought[0] & 0x20:
            self.wanted.append((confirmation(brought), certain_until))

    def with_probe(self, octets: bytes) -> bytes:
        """Octets, and behind them as many requests for the link's status as it takes until one is read as such."""
        brought, probe = list(self.receiver.feed(octets)), frame(b"", 0x49, source=self.outstation.address)
        for _ in range(40):
            octets += probe
            brought += self.receiver.feed(probe)
            if brought[-1:] == [LINK_STATUS] and not self.receiver.rest:
                break
        for it in brought:
            self.want(it)
        return octets

    def take(self, came: bytes) -> None:
        """What came is the next that is wanted, or may be."""
        while self.wanted:
            octets, certain_until = self.wanted.popleft()
            is_certain = time.monotonic() < certain_until
            if octets == came:
                self.credit[came] += not is_certain
                return
            if is_certain and self.credit[octets] == 0:
                raise Difference(f"an answer: wanted {spelled(octets)}, got {spelled(came)}")
            self.credit[octets] -= is_certain
        raise Difference(f"an answer that isn't due: {spelled(came)}")

    def take_frame(self, it: Frame | None) -> None:
        """A frame of the master: an answer of its link, a confirmation, or a request."""
        if it is None or (it.destination, it.source) != (self.outstation.address, MASTER):
            raise Difference(f"no frame of the master: {it}")
        if it.control != MASTER_USER_DATA:
            self.take(bytes([it.control]))
            return
        if it.user[:1] != bytes([0xC0 | self.came % 64]):
            raise Difference(f"a transport header: {spelled(it.user)}")
        self.came, fragment = self.came + 1, it.user[1:]
        if fragment[1:] == b"\0":
            self.take(fragment)
        elif is_request(fragment):
            self.awaiting, self.asked, self.request = fragment[0] & 0x0F, time.monotonic(), fragment
            self.seen["requests"] += 1
        else:
            raise Difference(f"no request: {spelled(fragment)}")

    def hear(self, limit: float) -> None:
        """Takes what comes next."""
        came = received(self.connection, limit)
        if not came:
            raise Difference("the connection to an outstation was ended")
        self.rest += came
        end = 0
        for end, it in link_events(self.rest):
            self.take_frame(it)
        self.rest = self.rest[end:]

    def play(self, rng: random.Random, octets: bytes) -> None:
        """Sends an input, and judges what comes for it."""
        self.inputs.append(octets)
        self.send(rng, self.with_probe(octets))
        end = time.monotonic() + patience(ANSWER_LIMIT)
        while self.wanted:
            self.hear(end - time.monotonic())
        self.credit.clear()

    def frames(self, fragment: bytes) -> bytes:
        carried = segments(fragment, self.sent)
        self.sent += len(carried)
        return b"".join(frame(it, source=self.outstation.address) for it in carried)

    def fragment(self, rng: random.Random) -> bytes:
        """A response that is right: an unsolicited one, or the answer to the request that awaits one."""
        number = self.outstation.number
        if self.awaiting is None or rng.random() < 0.5:
            self.unsolicited += 1
            control = 0xD0 | 0x20 * (rng.random() < 0.8) | self.unsolicited % 16
            return hostile.random_response(rng, self.setup, number, control, 130)
        control = 0xC0 | 0x20 * (rng.random() < 0.4) | self.awaiting
        if self.request[1] in (3, 4, 5) and rng.random() < 0.8:
            return bytes([control, 129, 0, 0]) + self.request[2:]
        return hostile.random_response(rng, self.setup, number, control, 129)

    def carried(self, rng: random.Random, carried: list[bytes]) -> bytes:
        self.sent += len(carried)
        return b"".join(frame(it, source=self.outstation.address) for it in carried if len(it) <= 250)

    def drain(self) -> bool:
        """Takes what has come already: requests."""
        while select.select([self.connection], [], [], 0)[0]:
            self.hear(0)
        return True

    def next_input(self, rng: random.Random) -> bytes:
        fragment, source = self.fragment(rng), self.outstation.address
        user = bytes([0xC0 | self.sent % 64]) + fragment[:249]
        ways = [
            (8, lambda: self.frames(fragment)),
            (10, lambda: self.frames(hostile.wrong_fragment(rng, fragment))),
            (6, lambda: hostile.wrong_frame(rng, user, source)),
            (3, lambda: hostile.link_service(rng, user, source)),
            (4, lambda: self.carried(rng, hostile.wrong_segments(rng, fragment, self.sent))),
            (1, lambda: self.carried(rng, hostile.endless_segments(rng, self.sent))),
            (2, lambda: hostile.noise(rng)),
            (2, lambda: hostile.changed(rng, self.frames(fragment))),
            (0.5, lambda: b"".join(self.frames(self.fragment(rng)) for _ in range(rng.choice([5, 40])))),
            (0.3, lambda: frame(b"", 0x49, source=source) * rng.choice([100, 1000])),
        ]
        return rng.choices([it for _, it in ways], [it for it, _ in ways])[0]()


class HostileCentre(HostilePeer):
    """A control centre whose octets are wrong, and what its APDUs are owed."""

    def connect(self) -> None:
        self.begin(socket.create_connection((HOST, self.house.port), patience(ANSWER_LIMIT)))
        self.model, self.stream, self.may_close, self.closes = ClientModel(self.setup, False), b"", False, False

    def feed(self, octets: bytes) -> None:
        """The model takes octets; whether the connection may be closed, or has to be."""
        self.stream += octets
        end = 0
        for end, apdu in apdu_events(self.stream):
            outcomes = {"closed"} if isinstance(apdu, str) else self.model.outcomes(apdu)
            self.closes = "taken" not in outcomes
            if self.closes:
                self.seen[min(outcomes) if len(outcomes) == 1 else "closed"] += 1
                return
            self.may_close |= len(outcomes) > 1
            self.model.take(apdu)
        self.stream = self.stream[end:]

    def with_probe(self, rng: random.Random, octets: bytes) -> bytes:
        """Octets, and what makes their last APDU whole, and TESTFR act behind it."""
        self.feed(octets)
        while self.stream and not self.closes:
            size = max(1, (2 + self.stream[1] if len(self.stream) > 1 else 2) - len(self.stream))
            more = rng.randbytes(size)
            self.feed(more)
            octets += more
        if not self.closes:
            self.feed(u_format(0x43))
            octets += u_format(0x43)
        return octets

    def hear(self, limit: float) -> bool:
        """Takes what comes next, and acknowledges it; whether the connection stands."""
        came = received(self.connection, limit)
        self.rest += came
        end, got = 0, self.model.got
        for end, apdu in apdu_events(self.rest):
            if isinstance(apdu, str):
                raise Difference(f"no APDU of the station: {spelled(self.rest[end : end + 20])}")
            self.model.tell(apdu)
        self.rest = self.rest[end:]
        if self.model.got > got and self.model.got > self.model.acknowledged and not self.closes:
            with suppress(OSError):
                self.connection.sendall(s_format(self.model.got))
                self.model.acknowledged = self.model.got
        return bool(came)

    def play(self, rng: random.Random, octets: bytes) -> bool:
        """Sends an input, and judges what comes for it; whether the connection stands."""
        self.inputs.append(octets)
        self.may_close = False
        octets = self.with_probe(rng, octets)
        with suppress(OSError):
            self.send(rng, octets)
        end, stands = time.monotonic() + patience(ANSWER_LIMIT), True
        while stands and (self.closes or self.model.confirmations or not self.model.owed.is_settled):
            stands = self.hear(end - time.monotonic())
        if not stands and not self.closes and not self.may_close:
            raise Difference("the connection of a control centre was closed, though its octets are right")
        return stands

    def drain(self) -> bool:
        """Takes what has come already; whether the connection stands."""
        while select.select([self.connection], [], [], 0)[0]:
            if not self.hear(0):
                return False
        return True

    def numbered(self, asdus: Iterable[bytes]) -> bytes:
        """I formats of these ASDUs with the next numbers."""
        sent, got = self.model.sent, self.model.got
        return b"".join(i_format(sent + place, got, it) for place, it in enumerate(asdus))

    def next_input(self, rng: random.Random) -> bytes:
        sent, got, setup = self.model.sent, self.model.got, self.setup
        asdu = random_asdu(rng, setup)
        acts = [0x07, 0x43, 0x43, 0x83, 0x0B, 0x23, 0x13]
        ways = [
            (6, lambda: self.numbered([asdu])),
            (6, lambda: self.numbered(random_asdu(rng, setup) for _ in range(rng.randrange(2, 9)))),
            (12, lambda: self.numbered([hostile.wrong_asdu(rng, setup)])),
            (2, lambda: hostile.wrong_numbers(rng, sent, got, asdu)),
            (3, lambda: hostile.wrong_apdu(rng, sent, got, asdu)),
            (2, lambda: s_format(rng.choice([got, got, got - 1, got + 1, rng.randrange(32768)]))),
            (3, lambda: b"".join(u_format(rng.choice(acts)) for _ in range(rng.randrange(1, 9)))),
            (0.5, lambda: hostile.noise(rng)),
            (0.5, lambda: u_format(0x43) * rng.choice([31, 33, 1000])),
            (0.5, lambda: self.numbered([asdu] * rng.choice([31, 33, 200]))),
        ]
        if not self.model.is_started and rng.random() < 0.8:
            return u_format(0x07)
        return rng.choices([it for _, it in ways], [it for it, _ in ways])[0]()


def play_peer(task: hostile.Task, peer: HostilePeer) -> None:
    """Input after input over one connection after another, for the rest of the round."""
    for rng in task.turns():
        try:
            if not peer.connection:
                peer.connect()
            if not peer.drain():
                raise Difference("the connection was ended, though nothing was wrong")
            octets, began = peer.next_input(rng), time.monotonic()
            stands = peer.play(rng, octets)
            task.tally.add(time.monotonic() - began)
            if stands is False:
                peer.leave()
            elif len(peer.inputs) >= MOST_INPUTS or rng.random() < 0.005:
                with suppress(OSError):
                    peer.connection.sendall(hostile.cut(rng, octets or b"\x68"))
                peer.leave(rng.random() < 0.5)
        except (Difference, OSError) as fault:
            saved = dict(surface=task.tally.surface, place=task.place, seed=task.seed, house=task.house.number,
                         settings=task.house.setup.text, inputs=[it.hex() for it in peer.inputs])
            raise Found(f"{task.tally.surface}: {fault or type(fault).__name__}", saved) from None
    task.tally.seen.update(peer.seen)


def dnp3(task: hostile.Task) -> None:
    play_peer(task, HostileOutstation(task.house, 1 + task.place))


def iec104(task: hostile.Task) -> None:
    play_peer(task, HostileCentre(task.house))


# ---- requests to the status


def answer_of_status(place: str, octets: bytes) -> bytes:
    """What a request is answered: the octets up to the end of input, or to a reset."""
    host, port = place.split(":")
    answer = b""
    with socket.create_connection((host, int(port)), patience(ANSWER_LIMIT)) as connection:
        with suppress(OSError):
            connection.sendall(octets)
            connection.shutdown(socket.SHUT_WR)
        while piece := received(connection, patience(ANSWER_LIMIT)):
            answer += piece
    return answer


def judge_status(octets: bytes, answer: bytes, wanted: Collection[int] | None) -> str:
    """The answer is whole, and its code is right."""
    if not answer:
        if wanted and len(octets) < 4096:
            raise Difference(f"no answer, wanted {wanted}")
        return "none"
    head, _, body = answer.partition(b"\r\n\r\n")
    match = re.match(rb"HTTP/1\.1 (200|400|404|405|431|503) [A-Z][A-Za-z ]+\r\n", head)
    lengths = re.findall(rb"\r\nContent-Length: (\d+)", head)
    if not match or len(lengths) != 1 or b"HTTP/1.1 " in body:
        raise Difference(f"no answer: {answer[:300]!r}")
    if len(body) != int(lengths[0]) and not (octets[:5] == b"HEAD " and not body) and len(octets) < 4096:
        raise Difference(f"the length of the body: wanted {int(lengths[0])}, got {len(body)}")
    if wanted and int(match[1]) not in wanted:
        raise Difference(f"the code: wanted {wanted}, got {int(match[1])}")
    return match[1].decode()


def status(task: hostile.Task) -> None:
    for rng in task.turns():
        octets, wanted = hostile.random_request(rng)
        began = time.monotonic()
        try:
            seen = judge_status(octets, answer_of_status(task.house.status, octets), wanted)
        except (Difference, OSError) as fault:
            saved = dict(surface="status", seed=task.seed, house=task.house.number, inputs=[octets.hex()],
                         wanted=sorted(wanted or ()))
            raise Found(f"status: {fault}", saved) from None
        task.tally.add(time.monotonic() - began)
        task.tally.seen[seen] += 1


def play_inputs_again(house: House, saved: dict[str, Any]) -> None:
    """Plays the inputs of one connection, each in one piece."""
    inputs = [bytes.fromhex(it) for it in saved["inputs"]]
    if saved["surface"] == "status":
        judge_status(inputs[0], answer_of_status(house.status, inputs[0]), saved["wanted"])
        return
    peer = HostileCentre(house) if saved["surface"] == "iec104" else HostileOutstation(house, 1 + saved["place"])
    peer.connect()
    for octets in inputs:
        peer.play(random.Random(0), octets)
    peer.leave()
