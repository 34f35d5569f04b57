"""Cases of `checks/serve`: outstations whatever they do: fragments, the frames of their links, connections that are lost, and
silence."""
import socket
import time
from contextlib import suppress
from functools import partial
from random import Random

from framing import MASTER, MASTER_USER_DATA, frame
from harness import (
    BINARY_OFF, BINARY_ON, CASE_LIMIT, DEAF, DEAF_MS, LOOKS, LOST, LOST_ROWS, MINUTE, OBJECTS, OFF, ON, OPENING, PAUSE,
    SHOWN, STRAYS, TICK, UNMAPPED, WALL, Scene, case, within,
)
from peers import (
    ENABLE, EVENTS, INTEGRITY, PATIENCE, Difference, Ended, Link, Outstation, response, same, same_octets, unsolicited,
)

# User data without an object, which are delivered where they come from the outstation to its master.
NO_OBJECTS = b"\xC0" + response(0)
# An outstation that isn't polled again for a day, but sends its events unasked; how many seconds an answer of it may take.
UNASKED = dict(unsolicited=True, poll_ms=86_400_000, response_ms=500)
ANSWER_LIMIT = 0.5
# REQUEST_LINK_STATUS of a master and LINK_STATUS of an outstation; behind how many seconds of silence it is asked for, and how
# many lie between two looks at a silent link at most.
STATUS_ASKED, STATUS_TOLD, SILENCE, LINK_LOOK = 0xC9, 0x0B, 60, 4.0


# ---- octets and fragments


@case
def slow_outstation(scene: Scene) -> None:
    """an outstation whose octets come one by one"""
    _, link = scene.watched()
    link.send(response(0, OBJECTS, con=True), apart=0.002)
    link.wants(bytes.fromhex("C0 00"))
    scene.witness.takes(*SHOWN)


def noise(least: int) -> bytes:
    """Octets of which none begins a right frame, though many look so."""
    octets, random = b"", Random(1815)
    while len(octets) < least:
        false = bytearray(frame(b"\xC0" + response(0, OFF)))
        false[random.randrange(len(false))] ^= random.randrange(1, 256)
        octets += random.randbytes(random.randrange(200)) + false
    return octets


@case
def noisy_outstation(scene: Scene) -> None:
    """100 kB of noise before an answer, of which each octet is counted"""
    outstation, link = scene.watched(status=True)
    octets = noise(100_000)
    link.write(octets)
    link.confirmed(response(0, ON, con=True))
    scene.witness.takes(BINARY_ON)
    scene.has_figures(outstation.labels, outstation_skipped_bytes_total=len(octets))


@case
def confirmations(scene: Scene) -> None:
    """confirmations come before the next request"""
    _, link = scene.watched(unsolicited=True)
    for number, request in enumerate([INTEGRITY, ENABLE] + [EVENTS] * 150):
        # Events of class 1 wait, so a poll for events is due at once, behind what else is.
        link.confirmed(response(number, UNMAPPED, con=True, iin=0x02))
        link.request(number + 1, request)


@case
def fragments(scene: Scene) -> None:
    """an answer of several fragments, a restart, and the clock"""
    outstation, link = scene.watched(lan_time=True)
    # The first of two, as long as one may be: 2,037 binary inputs that are on.
    link.confirmed(bytes.fromhex("A0 81 90 00 01 02 01 00 00 F4 07") + bytes([0x81] * 2037))
    scene.told(f"{outstation.name} restarted (IIN1.7)")
    scene.witness.takes(BINARY_ON)
    link.send(bytes.fromhex("41 81 90 00") + OFF)
    scene.witness.takes(BINARY_OFF)
    link.request(2, bytes.fromhex("02 50 01 00 07 07 00"))
    least = int(time.time() * 1000)
    link.send(response(2, iin=0x10))
    link.request(3, b"\x18")
    most = int(time.time() * 1000)
    link.send(response(3))
    octets = link.fragment()
    same_octets("the writing of the time", octets[:-6], bytes.fromhex("C4 02 32 03 07 01"))
    written = int.from_bytes(octets[-6:], "little")
    if not least <= written <= most:
        raise Difference(f"the time that is written: wanted {least} to {most}, got {written}")
    link.send(response(4))
    link.request(5, INTEGRITY)


# ---- frames of the link


@case
def link_services(scene: Scene) -> None:
    """the link's own frames are answered"""
    _, link = scene.watched()
    answer = b"\xC0" + response(0, ON, con=True)
    # Link status; a test before a reset; a reset; user data to be confirmed, twice with FCB 1; an unknown function.
    asked = [(0x49, b"", 0x8B), (0x72, b"", 0x81), (0x40, b"", 0x80), (0x73, answer, 0x80), (0x73, answer, 0x80)]
    for control, user, wanted in [*asked, (0x52, b"", 0x80), (0x41, b"", 0x8F)]:
        link.write(frame(user, control))
        same("an answer of the link", link.frame(), (wanted, b""))
        if control == 0x73 and user:
            link.wants(bytes.fromhex("C0 00")) if link.came == 1 else link.quiet(0.1)
    scene.witness.takes(BINARY_ON)


@case
def wrong_addresses(scene: Scene) -> None:
    """frames from and to other addresses deliver nothing"""
    scene.passed_over += f"|{STRAYS}"
    _, link = scene.watched()
    off = b"\xC0" + response(0, OFF, con=True)
    for wrong in (dict(destination=MASTER + 1), dict(source=2), dict(control=0xC4), dict(control=0x04)):
        link.write(frame(off, **wrong))
    link.quiet(0.2)
    link.confirmed(response(0, ON, con=True))
    scene.witness.takes(BINARY_ON)


def came_through(link: Link) -> None:
    """Whatever was sent before this has come through the link."""
    link.write(frame(b"", 0x49, source=link.address))
    same("an answer of the link", link.frame(), (0x8B, b""))


@case
def other_link_addresses(scene: Scene) -> None:
    """frames from or to another link address are told at once, and then once a minute, with the last one and how many came
    before it; an outstation whose frames have the right ones has no such line"""
    scene.bend(WALL)
    wrong, right = scene.outstation(), scene.outstation()
    scene.start()
    wrong_link, right_link = scene.accept(wrong), scene.accept(right)
    right_link.confirmed(response(0, ON, con=True))
    wrong_link.write(frame(NO_OBJECTS, source=7))
    scene.told(f"{wrong.name} a frame from link address 7 to 1024 came; from 1 to 1024 is expected")
    wrong_link.write(frame(NO_OBJECTS, source=7) * 2 + frame(NO_OBJECTS, destination=3))
    came_through(wrong_link)
    came_through(right_link)
    scene.clock.set(WALL + MINUTE - 1)
    scene.tells_nothing(LOOKS)
    scene.clock.set(WALL + MINUTE)
    scene.told(f"{wrong.name} a frame from link address 1 to 3 came, and 2 more; from 1 to 1024 is expected")
    # What waits for its time is told at the end.
    wrong_link.write(frame(NO_OBJECTS, source=2, destination=2))
    came_through(wrong_link)
    scene.process.stdin.close()
    scene.told(f"{wrong.name} a frame from link address 2 to 2 came; from 1 to 1024 is expected")


@case
def master_as_peer(scene: Scene) -> None:
    """a frame in the direction of an outstation tells of a master, whatever its link addresses; frames that aren't whole tell
    nothing of it"""
    scene.bend(WALL)
    outstations = [scene.outstation() for _ in range(2)]
    scene.start()
    links = [scene.accept(it) for it in outstations]
    request = partial(frame, b"\xC0\xC0" + INTEGRITY, MASTER_USER_DATA)
    lines = [
        f"{it.name} a frame from link address {way} came in the direction of an outstation (DIR 1); the peer is a master, or "
        "sends back what it gets" for it, way in zip(outstations, ("3 to 10", "2 to 1024"))]
    for link, octets in zip(links, (request(source=3, destination=10), request(source=2))):
        link.write(octets[:-1] + bytes([octets[-1] ^ 1]))
        came_through(link)
    scene.tells_nothing(LOOKS)
    for link, octets, line in zip(links, (request(source=3, destination=10), request(source=2)), lines):
        link.write(octets)
        scene.told(line)


@case
def wrong_prm(scene: Scene) -> None:
    """user data with PRM 0 are told, and the status of the link with PRM 1; what answers a primary station isn't"""
    scene.bend(WALL)
    outstation = scene.outstation()
    scene.start()
    link = scene.accept(outstation)
    for control in (0x00, 0x01, 0x0B, 0x0F):
        link.write(frame(b"", control))
    came_through(link)
    scene.tells_nothing(LOOKS)
    link.write(frame(NO_OBJECTS, 0x04))
    scene.told(f"{outstation.name} a frame of function 4 with PRM 0 came; PRM 1 is expected")
    scene.clock.set(WALL + MINUTE)
    link.write(frame(b"", 0x4B))
    same("an answer of the link", link.frame(), (0x8F, b""))
    scene.told(f"{outstation.name} a frame of function 11 with PRM 1 came; PRM 0 is expected")


# ---- connections


@case
def silent_outstation(scene: Scene) -> None:
    """an outstation that never says anything"""
    outstation, link = scene.watched(poll_ms=200, response_ms=300)
    with suppress(Ended):
        for number in range(1, 16):
            link.request(number, INTEGRITY)
            within(f"request {number}", time.time() - link.began, number * 0.3, number * (0.3 + TICK))
    lost = scene.lost(outstation, "lost: silent for 1 s")
    within("the loss", lost - link.began, 1.1, 1.1)
    scene.witness.interrogate(*OPENING)
    within("the next connection", scene.accept(outstation).began - lost, PAUSE, PAUSE + TICK)


@case
def silenced_outstation(scene: Scene) -> None:
    """an outstation that falls silent is lost, and comes back"""
    outstation, link = scene.watched(poll_ms=200, response_ms=300)
    link.send(response(0, OBJECTS))
    began = time.monotonic()
    scene.witness.takes(*SHOWN)
    link.rest()
    within("the loss", time.monotonic() - began, 1.1, 1.1)
    scene.lost(outstation, "lost: silent for 1 s")
    scene.witness.takes(*LOST)
    scene.witness.interrogate(*LOST_ROWS)
    link = scene.accept(outstation)
    link.send(response(0, OBJECTS))
    scene.witness.takes(*SHOWN)


@case
def unanswering_outstation(scene: Scene) -> None:
    """an outstation of which octets come, but no answer, is lost: its link alone lives, or another station on its line"""
    scene.passed_over += f"|{STRAYS}"
    outstation, link = scene.watched(poll_ms=200, response_ms=600)
    why, ways = "octets came, but no answer", (frame(b"", 0x49), frame(b"\xC0" + response(1, OFF), source=2))
    for octets, lost in zip(ways, (f"lost: {why}", f"lost again: {why} (2 times since #:#)")):
        began = time.time()
        link.send(response(0, OBJECTS))
        scene.witness.takes(*SHOWN)
        with suppress(OSError):
            while time.time() < began + PATIENCE:
                link.write(octets)
                time.sleep(0.1)
        within("the loss", scene.lost(outstation, lost) - began, 2, 2.1 + TICK)
        scene.witness.takes(*LOST)
        scene.witness.interrogate(*LOST_ROWS)
        # That it is connected behind the second loss isn't told at once.
        link = scene.accept(outstation, is_told=octets == ways[0])


@case
def late_outstation(scene: Scene) -> None:
    """an answer that comes late means nothing"""
    _, link = scene.watched(response_ms=300)
    link.request(1, INTEGRITY)
    within("the next request", time.time() - link.began, 0.3, 0.3 + TICK)
    link.send(response(0, OFF, con=True))
    link.confirmed(response(1, ON, con=True))
    scene.witness.takes(BINARY_ON)


@case
def broken_outstation(scene: Scene) -> None:
    """an outstation that resets its connection within a fragment"""
    outstation, link = scene.watched()
    # 300 binary inputs, of which 5 is the only point.
    first, second = link.frames(response(0, bytes.fromhex("01 02 01 00 00 2B 01") + bytes([0x81] * 300), con=True))
    link.write(first + second[:20])
    link.quiet(0.1)
    link.reset()
    scene.lost(outstation, "lost: reset by peer")
    link = scene.accept(outstation)
    link.write(second)
    link.quiet(0.2)
    link.confirmed(response(0, ON, con=True))
    scene.witness.takes(BINARY_ON)


@case
def closing_outstation(scene: Scene) -> None:
    """an outstation that closes its connection"""
    outstation, link = scene.watched()
    link.send(response(0, OBJECTS))
    scene.witness.takes(*SHOWN)
    link.leave()
    scene.lost(outstation, "lost: end of input")
    scene.witness.takes(*LOST)
    scene.accept(outstation).send(response(0, OBJECTS))
    scene.witness.takes(*SHOWN)


@case
def same_place(scene: Scene) -> None:
    """two outstations at one place, with the same link address, are told of, and both served"""
    first, second = scene.outstation(), scene.outstation(listens=False)
    second.listener.close()
    second.listener, second.place, second.address = first.listener, first.place, first.address
    scene.start()
    scene.told(f"outstations 0 and 1 are both reached at {first.place}, and have the same link address")
    for outstation in (first, second):
        scene.accept(outstation).confirmed(response(0, con=True))


@case
def deaf_outstation(scene: Scene) -> None:
    """an outstation that never reads"""
    scene.bend()
    outstation, link = scene.watched(**DEAF, response_ms=DEAF_MS, poll_ms=1000)
    # Meanwhile a poll falls due, and waits behind the octets that the outstation doesn't read.
    link.send(response(0))
    link.connection.settimeout(CASE_LIMIT)
    asked = frame(b"", 0x49) * 20_000
    with suppress(OSError):
        while True:
            link.write(asked)
    scene.lost(outstation, f"lost: a write took longer than {DEAF_MS} ms")
    scene.accept(outstation)


@case
def no_outstation(scene: Scene) -> None:
    """outstations that can't be reached, until one can"""
    outstation = scene.outstation(listens=False, response_ms=500)
    nowhere = scene.outstation()
    nowhere.place = "nowhere"
    scene.start(sessions=1, witness=True)
    scene.told("the address of outstation 1, nowhere, has no port")
    scene.told(f"{outstation.name} not connected: connection refused")
    scene.told(f"{nowhere.name} not connected: no address of a host and a port")
    scene.witness.interrogate(*OPENING)
    # It is tried again, and not told of again. Then another connection keeps it waiting, which is told.
    time.sleep(PAUSE + TICK)
    outstation.listener.listen(0)
    with socket.create_connection(outstation.listener.getsockname()):
        scene.told(f"{outstation.name} not connected: no answer in time")
    outstation.listener.accept()[0].close()
    link = scene.accept(outstation)
    link.send(response(0, OBJECTS))
    scene.witness.takes(*SHOWN)


# ---- links on which nothing comes for long


def begun_unasked(scene: Scene, count: int) -> list[tuple[Outstation, Link]]:
    """So many such outstations, which have answered that they have nothing, and their connections. All that they sent was heard: what
    is read after the clock has leapt would begin the minute anew."""
    outstations = [scene.outstation(**UNASKED) for _ in range(count)]
    scene.bend(WALL)
    scene.start()
    links = [scene.accept(it) for it in outstations]
    for link in links:
        link.send(response(0))
        for number, request in enumerate([INTEGRITY, ENABLE], 1):
            link.request(number, request)
            link.send(response(number))
        link.confirmed(unsolicited(1, OFF))
    return list(zip(outstations, links))


@case
def silent_links(scene: Scene) -> None:
    """behind a minute of silence the status of a link is asked for: an outstation that answers it is lost once it doesn't, one
    that never does isn't, nor is it asked again, and one of which anything else comes isn't either"""
    (answering, asked), (mute, dumb), (talking, other) = begun_unasked(scene, 3)
    scene.clock.be_ahead(SILENCE)
    for link in asked, dumb, other:
        same("the request for the status", link.frame(), (STATUS_ASKED, b""))
    asked.write(frame(b"", STATUS_TOLD, source=asked.address))
    other.confirmed(unsolicited(0, OFF))
    scene.told(f"{mute.name} doesn't answer a link status")
    scene.tells_nothing(ANSWER_LIMIT + LINK_LOOK)
    scene.clock.be_ahead(2 * SILENCE)
    for link in asked, other:
        same("the request for the status", link.frame(), (STATUS_ASKED, b""))
    began = time.monotonic()
    scene.told(f"{talking.name} doesn't answer a link status")
    scene.lost(answering, "lost: no answer to a link status")
    within("the loss", time.monotonic() - began, ANSWER_LIMIT, ANSWER_LIMIT + LINK_LOOK)
    dumb.quiet(LINK_LOOK)
    scene.accept(answering)


@case
def foreign_status(scene: Scene) -> None:
    """the status of another outstation's link, on one line with it, is no answer"""
    (outstation, link), = begun_unasked(scene, 1)
    scene.clock.be_ahead(SILENCE)
    same("the request for the status", link.frame(), (STATUS_ASKED, b""))
    other = link.address + 1
    link.write(frame(b"", STATUS_TOLD, source=other))
    scene.told(
        f"{outstation.name} a frame from link address {other} to {MASTER} came; from {link.address} to {MASTER} is expected")
    link.quiet(LINK_LOOK)
    scene.clock.be_ahead(2 * SILENCE)
    same("the next request for the status", link.frame(), (STATUS_ASKED, b""))
    scene.told(f"{outstation.name} doesn't answer a link status")
