"""Cases of `checks/serve`: calls to the system that fail or are interrupted, and a host that stands still."""
import errno
import signal
import time
from collections.abc import Callable, Iterator
from contextlib import suppress
from functools import partial

from framing import i_format, spelled
from harness import (
    ACCEPTING, BINARY_ON, CONNECTING, INTERRUPTED, LOOK, OBJECTS, PAUSE, READING, ROWS, TICK, TRANSFERS, WRITING, Scene,
    answered, case, inputs, within,
)
from peers import (
    ACTIVATION, CONFIRMATION, EVENTS, INTEGRITY, START, START_CON, TERMINATION, Centre, Difference, Link, confirmation,
    general, response, same, same_octets, unsolicited,
)

# Why a call fails, in words, for each error.
FAILURES = {
    errno.ECONNREFUSED: "connection refused",
    errno.ECONNRESET: "reset by peer",
    errno.ECONNABORTED: "connection aborted",
    errno.EPIPE: "broken pipe",
    errno.ENOTCONN: "not connected",
    errno.ETIMEDOUT: "no answer in time",
    errno.EAGAIN: "no answer in time",
    errno.EHOSTUNREACH: "host unreachable",
    errno.ENETUNREACH: "network unreachable",
    errno.ENETDOWN: "network down",
    errno.ENOENT: "no such host",
    errno.EINVAL: "no address of a host and a port",
    errno.EADDRINUSE: "address in use",
    errno.EADDRNOTAVAIL: "no address of this machine",
    errno.EACCES: "permission denied",
    errno.EPERM: "permission denied",
    errno.ENOMEM: "no memory",
    errno.EIO: "the system refuses",
    errno.EMFILE: "the system refuses",
}
# Errors that say of themselves that a connection has ended, and those that say that a call took too long.
ENDING = (
    errno.ECONNRESET, errno.ECONNABORTED, errno.EPIPE, errno.EHOSTUNREACH, errno.ENETUNREACH, errno.ENETDOWN)
LATE = (errno.ETIMEDOUT, errno.EAGAIN)
# How often a host stands still in a row, for how many seconds, and t1 and the time for an answer, in milliseconds.
TRIES, STANDSTILL_SECONDS, SHORTER_MS = 7, 3, 2000


# ---- calls that fail


@case
def failing_connections(scene: Scene) -> None:
    """each error with which an outstation can't be connected, and a name that no host has"""
    scene.bend()
    for number in FAILURES:
        scene.outstation(listens=False, place=f"{CONNECTING}.{number}:1")
    # No part of a host's name has more than 63 characters.
    scene.outstation(listens=False, place=f"{'a' * 64}:1")
    scene.start()
    for outstation, words in zip(scene.outstations, [*FAILURES.values(), "no such host"]):
        scene.told(f"{outstation.name} not connected: {words}")


def losses(scene: Scene, hosts: str, undone: str, late: str) -> None:
    """Connections to outstations and control centres on these hosts end with each error: what wasn't done then, and what
    is told where it took too long."""
    scene.bend()
    scene.passed_over += r"|outstation \d+ \S+ (connected|not connected: .*|lost again: .*)"
    words = {it: why if it in ENDING else f"nothing could be {undone}: {why}" for it, why in FAILURES.items()}
    outstations = {number: scene.outstation(host=f"{hosts}.{number}") for number in FAILURES}
    scene.start()
    lines = [f"{it.name} lost: {late if number in LATE else words[number]}" for number, it in outstations.items()]
    for line, outstation in zip(lines, scene.outstations):
        scene.told(line)
        outstation.listener.close()
    for number in set(FAILURES) - set(LATE):
        centre = scene.client(host=f"{hosts}.{number}")
        with suppress(OSError):
            centre.write(bytes.fromhex(START))
        scene.closed(centre, f"lost: {words[number]}")
        centre.connection.close()
    # Before they didn't listen any more some may have been connected once more.
    with scene.noted:
        scene.notes = [it for it in scene.notes if it[0] not in lines]


@case
def failing_reads(scene: Scene) -> None:
    """each error with which reading from an outstation fails, or from a control centre"""
    losses(scene, READING, "read", "silent for 75 s")


@case
def failing_writes(scene: Scene) -> None:
    """each error with which writing to an outstation fails, or to a control centre"""
    losses(scene, WRITING, "written", "a write took longer than 5000 ms")


# What a control centre that starts and interrogates is answered, an APDU each time that it acknowledges, under k = 1.
ANSWERS = [general(CONFIRMATION), *ROWS, general(TERMINATION)]


# What is done to get an APDU, and how it is taken.
Exchange = tuple[Callable[[], None], Callable[[], None]]


def exchanges(centre: Centre) -> Iterator[Exchange]:
    """What a control centre does to get each APDU of its start and its interrogation, and how it takes it."""
    yield lambda: centre.send(START), lambda: centre.wants(START_CON)
    yield lambda: centre.ask(general(ACTIVATION)), lambda: centre.takes(ANSWERS[0])
    for it in ANSWERS[1:]:
        yield centre.acknowledge, lambda it=it: centre.takes(it)


def interrogated(scene: Scene, hosts: int, what: str) -> Iterator[tuple[Centre, list[Exchange], int]]:
    """Control centres start and interrogate, for whom behind ever more calls one fails."""
    outstation = scene.outstation()
    scene.start(k=1, w=1)
    scene.accept(outstation).send(response(0, OBJECTS))
    for count in range(len(ANSWERS) + 1):
        centre = scene.client(host=f"127.{hosts}.{count}.{errno.EIO}")
        yield centre, list(exchanges(centre)), count
        scene.closed(centre, f"lost: nothing could be {what}: {FAILURES[errno.EIO]}")
        centre.connection.close()


@case
def late_failing_writes(scene: Scene) -> None:
    """a control centre to which the first write fails, or the second, and so on: it has got whole APDUs until then, and no
    octet more; its place is free again"""
    scene.bend()
    for centre, steps, count in interrogated(scene, 103, "written"):
        for ask, take in steps[:count]:
            ask()
            take()
        with suppress(OSError):
            steps[count][0]()
        same_octets("octets behind a write that fails", centre.rest(), b"")


@case
def late_failing_reads(scene: Scene) -> None:
    """a control centre from which the first read fails, or the second, and so on: what it asked before that is answered
    but for the last, which is whole or isn't there; its place is free again"""
    scene.bend()
    for centre, steps, count in interrogated(scene, 102, "read"):
        for ask, take in steps[: max(count - 1, 0)]:
            ask()
            take()
        if count:
            steps[count - 1][0]()
            rest = centre.rest()
            whole = [bytes.fromhex(START_CON), *(i_format(it, 1, octets) for it, octets in enumerate(ANSWERS))]
            if rest not in (b"", whole[count - 1]):
                raise Difference(f"the last answer: {spelled(rest)}")


def reported(scene: Scene, hosts: int, what: str) -> Iterator[tuple[Link, int]]:
    """Outstations report events, for whom behind ever more calls one fails."""
    scene.passed_over += r"|outstation \d+ \S+ (connected|not connected: .*)"
    outstations = [scene.outstation(host=f"127.{hosts}.{it}.{errno.EIO}") for it in range(5)]
    scene.start()
    for count, outstation in enumerate(outstations):
        link = outstation.accept()
        outstation.listener.close()
        yield link, count
        scene.told(f"{outstation.name} lost: nothing could be {what}: {FAILURES[errno.EIO]}")
        link.connection.close()


@case
def late_failing_writes_to_outstations(scene: Scene) -> None:
    """an outstation to which the first write fails, or the second, and so on: it has got a request and confirmations until
    then, and no octet more"""
    scene.bend()
    for link, count in reported(scene, 103, "written"):
        if count:
            link.request(0, INTEGRITY)
        for number in range(1, count):
            link.confirmed(unsolicited(number, b""))
        if count:
            link.send(unsolicited(count, b""))
        same_octets("octets behind a write that fails", link.rest(), b"")


@case
def late_failing_reads_from_outstations(scene: Scene) -> None:
    """an outstation from which the first read fails, or the second, and so on: what it sent before is confirmed, but for
    the last one, of which that may come"""
    scene.bend()
    for link, count in reported(scene, 102, "read"):
        if not count:
            continue
        link.request(0, INTEGRITY)
        for number in range(1, count):
            link.confirmed(unsolicited(number, b""))
        link.send(unsolicited(count, b""))
        link.rest()


@case
def failing_accepts(scene: Scene) -> None:
    """that a connection can't be accepted is told, and after a second the next one is"""
    scene.bend()
    scene.start()
    for number in (errno.EIO, errno.ENOMEM):
        Centre(scene.port, host=f"{ACCEPTING}.{number}").connection.close()
        _, began = scene.told(f"no connection accepted: {FAILURES[number]}")
        scene.client()
        within("the next one", time.time() - began, PAUSE, PAUSE)


@case
def interrupted_calls(scene: Scene) -> None:
    """an outstation, a control centre and requests to the status whose octets come and go one by one, or few at a time,
    behind an interruption each time"""
    scene.bend()
    single, few = f"{INTERRUPTED}.1", f"{INTERRUPTED}.200"
    outstation = scene.outstation(host=single)
    scene.start(status=True)
    link, centre = scene.accept(outstation), scene.client(host=single)
    link.confirmed(response(0, OBJECTS, con=True))
    centre.start()
    centre.interrogate(*ROWS)
    for host, path, wanted in ((single, "/other", 404), (few, "/", 200), (few, "/metrics", 200)):
        code, fields, body = answered(scene.asking(f"GET {path} HTTP/1.1\r\n\r\n".encode(), host=host))
        same(f"the answer to a request for {path}", (code, len(body.encode())), (wanted, int(fields["Content-Length"])))


# ---- a host that stands still


def stand_still(scene: Scene, meanwhile: Callable[[], None]) -> None:
    """The gateway stands still, as with its host, and something happens meanwhile."""
    scene.process.send_signal(signal.SIGSTOP)
    time.sleep(TICK)
    meanwhile()
    time.sleep(STANDSTILL_SECONDS - TICK)
    scene.process.send_signal(signal.SIGCONT)


@case
def standstill(scene: Scene) -> None:
    """behind a standstill of the host, which is told, what came in time is taken before t1 and the time for an answer are
    judged, so no control centre is closed, and no request counts as unanswered; also where the next one follows at once"""
    scene.is_made_to_stand, scene.passed_over = True, TRANSFERS
    outstation = scene.outstation(response_ms=SHORTER_MS)
    scene.start(t1_ms=SHORTER_MS, t2_ms=SHORTER_MS // 2)
    link, centre = scene.accept(outstation), scene.started()
    event = partial(response, objects=inputs(1), con=True, iin=0x02)

    def arrive(number: int) -> None:
        """The answer to the request under way comes, and an acknowledgement of the I format under way."""
        link.send(event(number))
        centre.acknowledge()

    link.send(event(0))
    for number in range(TRIES + 1):
        link.wants(confirmation(event(number)))
        link.request(number + 1, EVENTS)
        centre.takes(BINARY_ON)
        if number < TRIES:
            # The clock has ticked since it began, or since the standstill before; behind each second one it mostly hasn't.
            if number % 2 == 0:
                time.sleep(LOOK)
            stand_still(scene, lambda: arrive(number + 1))
            scene.told("the host stood still for #.# s")
