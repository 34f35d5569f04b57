"""Cases of `checks/serve`: what an operator is told on standard error, line by line, how often, and what becomes of lines
that nobody reads."""
import os
import re
import tempfile
import threading
import time
from contextlib import suppress
from fcntl import ioctl
from termios import FIONREAD

from harness import (
    BINARY_ON, CONTROLS, COUNTS, END_LIMIT, EXAMPLE, HOUR, LOOK, LOOKS, MINUTE, OBJECTS, OFF, OFF_COMMAND, OFF_REFUSED,
    ON, OTHER_HOST, PAUSE, POINTS, SECOND, SHOWN, SLOW, TICK, TRANSFERS, TROUBLES, UNMAPPED, WALL, Scene, case,
    count_up, inputs, priority_of, start_line, within,
)
from peers import (
    EVENTS, HOST, INTEGRITY, NOTE, PATIENCE, START, START_CON, STOP, STOP_CON, Centre, Link, free_place, response, same,
    same_octets, unsolicited,
)

@case
def first_lines(scene: Scene) -> None:
    """the first lines, with control characters escaped"""
    text = EXAMPLE.replace("[station]", f'[station]\nlisten = "{HOST}:0"')
    text = text.replace("[[outstation]]", '[[outstation]]\nconnect = "rtu\\n<3>"')
    with tempfile.NamedTemporaryFile("w", prefix="\t\x1B") as file:
        file.write(text)
        file.flush()
        scene.run(file.name, "--until-eof")
        threading.Thread(target=scene.hear, daemon=True).start()
        scene.told(start_line(file.name).replace("\t\x1B", r"\t\u{1b}"))
    scene.told(r"the address of outstation 0, rtu\n<3>, has no port")
    scene.told(r"outstation 0 rtu\n<3> not connected: no address of a host and a port")
    scene.told(f"listening on {HOST}:#")
    scene.process.stdin.close()
    scene.told("stopped")
    same("the status", scene.process.wait(END_LIMIT), 0)
    same("more lines on standard error", scene.notes, [])
    scene.process = None


@case
def transfers(scene: Scene) -> None:
    """the start and the stop of data transfer are told once each"""
    scene.passed_over = COUNTS
    scene.start(sessions=1)
    centre = scene.client()
    for _ in range(2):
        for act, con, what in ((START, START_CON, "started"), (STOP, STOP_CON, "stopped")):
            for _ in range(2):
                centre.send(act)
                centre.wants(con)
            scene.told(f"{centre.name} data transfer {what}")


# ---- fragments, indications and objects


@case
def refused_fragment(scene: Scene) -> None:
    """a fragment with an unknown object is told of, and not confirmed"""
    outstation, link = scene.watched()
    link.send(response(0, OFF + bytes.fromhex("C8 01 00 00 00 00"), con=True))
    scene.told(f"{outstation.name} unreadable: group 200 variation 1 at 6 is unknown")
    link.quiet(0.2)
    link.confirmed(response(0, ON, con=True))
    scene.witness.takes(BINARY_ON)


@case
def refused_fragments(scene: Scene) -> None:
    """of refused fragments the first is told, and a second later the last, and how many came between"""
    outstation, link = scene.watched()
    unknown = response(0, OFF + bytes.fromhex("C8 01 00 00 00 00"), con=True)
    link.write(b"".join(it for fragment in [unknown] * 4 + [b"\xC0\x01\0\0"] for it in link.frames(fragment)))
    _, first = scene.told(f"{outstation.name} unreadable: group 200 variation 1 at 6 is unknown")
    _, last = scene.told(f"{outstation.name} unreadable: function 1, which is no response, and 3 more")
    within("the last", last - first, 1, 2 + TICK)
    link.confirmed(response(0, ON, con=True))
    scene.witness.takes(BINARY_ON)


@case
def indications(scene: Scene) -> None:
    """a restart, an overflow and a clock that can't be set are told where they begin, and not while they stay, and again on
    the next connection"""
    outstation, link = scene.watched(lan_time=True)
    link.send(response(0, iin=0x02))
    # All three, and a restart and an overflow one behind the other.
    turns = [(0x90, 0x08, TROUBLES), (0x02, 0, ()), (0x90, 0x08, TROUBLES), (0x02, 0, ())]
    turns += [(0x82, 0, TROUBLES[:1]), (0x02, 0x08, TROUBLES[1:2]), (0x82, 0x08, TROUBLES[:1])]
    for iin, iin2, told in turns:
        for _ in range(10):
            link.send(response(link.fragment()[0] & 0x0F, UNMAPPED, iin=iin, iin2=iin2))
        for what in told:
            scene.told(f"{outstation.name} {what}")
    link.leave()
    scene.lost(outstation, "lost: end of input")
    link = scene.accept(outstation)
    link.send(response(0, iin=0x82, iin2=0x08))
    for what in TROUBLES[:2]:
        scene.told(f"{outstation.name} {what}")


@case
def objects_passed_over(scene: Scene) -> None:
    """how many objects came of kinds that aren't taken is told at once, and then once an hour"""
    outstation, link = scene.watched()
    # Two analog inputs in floating point, and one of 32 bits, which is a point.
    link.send(response(0, bytes.fromhex("1E 05 00 01 02 01 00 00 80 3F 01 00 00 00 40 1E 02 00 00 00 01 0A 00")))
    scene.told(f"{outstation.name} 2 objects passed over, of kinds that aren't taken")
    scene.witness.takes(SHOWN[1])
    link.confirmed(unsolicited(0, bytes.fromhex("6E 01 00 03 03 41")))
    scene.tells_nothing(1.3)
    # At the end, what waits for its time.
    scene.passed_over += r"|outstation \d+ \S+ 1 object passed over, .+"


# Fragments that are refused, and why.
UNREADABLE = {
    "C0 81 00": "fewer than four octets",
    "C0 01 00 00": "function 1, which is no response",
    "C0 81 00 00 01 01 00 00 07 FF 1F 02 00": "group 31 variation 2 at 6 is unknown",
    "C0 81 00 00 1E 01 5B 01": "group 30 variation 1 at 0 has qualifier 0x5B",
    "C0 81 00 00 1E 01": "a header of fewer than three octets at 0",
    "C0 81 00 00 1E 01 00 00": "group 30 variation 1 at 0 is cut off in its range",
    "C0 82 00 00 1E 01 00 05 04": "group 30 variation 1 at 0 stops before it starts",
    "C0 81 00 00 1E 01 00 00 00 01": "group 30 variation 1 at 0 is cut off in its objects",
}


def refuse(scene: Scene, link: Link, text: str, number: int, later: int) -> None:
    """So many milliseconds later an outstation sends a fragment that is refused, and behind it one that isn't."""
    scene.clock.set(WALL + later)
    link.send(bytes.fromhex(text))
    link.confirmed(unsolicited(number, b""))


@case
def unreadable_fragments(scene: Scene) -> None:
    """why each of some fragments is refused"""
    scene.bend(WALL)
    outstation, link = scene.watched()
    link.send(response(0))
    for number, (text, words) in enumerate(UNREADABLE.items()):
        refuse(scene, link, text, number, number * SECOND)
        scene.told(f"{outstation.name} unreadable: {words}")


@case
def refused_in_a_second(scene: Scene) -> None:
    """of fragments that are refused one is told in a second, and behind it the last one, and how many came between"""
    scene.bend(WALL)
    outstation, link = scene.watched()
    link.send(response(0))
    short, other = list(UNREADABLE)[:2]
    for number, (text, later) in enumerate([(other, 0), (other, 100), (other, 200), (short, SECOND - 1)]):
        refuse(scene, link, text, number, later)
    scene.told(f"{outstation.name} unreadable: {UNREADABLE[other]}")
    scene.tells_nothing(LOOKS)
    scene.clock.set(WALL + SECOND)
    scene.told(f"{outstation.name} unreadable: {UNREADABLE[short]}, and 2 more")
    scene.clock.set(WALL + MINUTE)
    scene.tells_nothing(LOOKS)
    # One is told at once, and none is left then.
    refuse(scene, link, short, 4, MINUTE)
    scene.told(f"{outstation.name} unreadable: {UNREADABLE[short]}")
    scene.clock.set(WALL + MINUTE + SECOND)
    scene.tells_nothing(LOOKS)


# ---- what is told once in a while


@case
def unanswered(scene: Scene) -> None:
    """how many requests had no answer, and how many octets were skipped, is told"""
    scene.passed_over = TRANSFERS
    outstation, link = scene.watched(response_ms=250)
    link.send(response(0))
    link.write(bytes(5))
    # It is looked each second, so two requests are over before it is looked again.
    scene.told(f"{outstation.name} 5 octets skipped by the link")
    link.send(bytes([0xF0, 0x82, 0x00, 0x08]))
    link.wants(bytes.fromhex("D0 00"))
    for number in range(1, 4):
        link.request(number, INTEGRITY)
    link.send(response(3))
    scene.told(f"{outstation.name} {TROUBLES[1]}")
    scene.told(f"{outstation.name} 2 requests unanswered")


@case
def dropped_news(scene: Scene) -> None:
    """how many news were dropped, since too many waited, is told"""
    outstation = scene.outstation()
    scene.start(sessions=1, k=1, w=1, queue=10)
    link, centre = scene.accept(outstation), scene.started()
    link.send(response(0))
    news = count_up(link, 1)
    scene.told(f"{centre.name} 140 observations dropped, since too many waited")
    for octets in news[140:]:
        centre.takes(octets)
        centre.acknowledge()


@case
def dropped_at_the_end(scene: Scene) -> None:
    """what was dropped just before a data transfer ends is told, and counted"""
    outstation = scene.outstation()
    scene.start(status=True, k=1, w=1, queue=10)
    link, stopping, leaving = scene.accept(outstation), scene.started(), scene.started()
    link.send(response(0))
    lasts = count_up(link, 1)[140:]
    for centre in (stopping, leaving):
        centre.takes(*lasts)
    stopping.send(STOP)
    stopping.wants(STOP_CON)
    scene.leave(leaving)
    for centre in (stopping, leaving):
        scene.told(f"{centre.name} 140 observations dropped, since too many waited")
        scene.has_figures(f'client="{centre.place}"', client_dropped_observations_total=140)


@case
def told_at_the_end(scene: Scene) -> None:
    """what is told once a minute is told when the gateway ends"""
    scene.passed_over = TRANSFERS
    outstation = scene.outstation()
    scene.start()
    link = scene.accept(outstation)
    link.send(response(0))
    for count in (5, 7):
        link.write(bytes(count))
        link.confirmed(unsolicited(count, ON))
        if count == 7:
            scene.process.stdin.close()
        scene.told(f"{outstation.name} {count} octets skipped by the link")


@case
def skipped_once_a_minute(scene: Scene) -> None:
    """skipped octets are told at once, and then once a minute, or where the clock was set back"""
    scene.bend(WALL)
    scene.passed_over = TRANSFERS
    outstation, link = scene.watched(status=True)

    def told(words: str) -> None:
        scene.told(f"{outstation.name} {words} skipped by the link")

    def skip(count: int, total: int) -> None:
        """The link skips so many octets, so many in all, and has noted that."""
        link.write(bytes(count))
        scene.has_figures(outstation.labels, outstation_skipped_bytes_total=total)

    link.send(response(0))
    skip(1, 1)
    told("1 octet")
    skip(7, 8)
    skip(5, 13)
    scene.clock.set(WALL + MINUTE - 1)
    scene.tells_nothing(LOOKS)
    scene.clock.set(WALL + MINUTE)
    told("12 octets")
    skip(2, 15)
    scene.clock.set(WALL - 1)
    told("2 octets")


@case
def unanswered_once_a_minute(scene: Scene) -> None:
    """requests without an answer are told at once, and then once a minute; what awaits its answer where the connection is
    lost is none of them"""
    scene.bend(WALL)
    scene.passed_over = TRANSFERS
    outstation, link = scene.watched(status=True, response_ms=600)
    link.request(1, INTEGRITY)
    link.send(response(1))
    scene.told(f"{outstation.name} 1 request unanswered")
    # A fragment that answers none is no answer.
    link.confirmed(bytes.fromhex("F0 82 00 08"))
    scene.told(f"{outstation.name} {TROUBLES[1]}")
    for number in (2, 3, 4):
        link.request(number, INTEGRITY)
        link.confirmed(unsolicited(number, b""))
    link.send(response(4))
    scene.clock.set(WALL + MINUTE - 1)
    scene.tells_nothing(LOOKS)
    scene.clock.set(WALL + MINUTE)
    scene.told(f"{outstation.name} 2 requests unanswered")
    link.confirmed(bytes.fromhex("F0 82 00 08"))
    scene.told(f"{outstation.name} {TROUBLES[1]}")
    link.request(5, INTEGRITY)
    link.leave()
    scene.lost(outstation, "lost: end of input")

    def figures(is_up: int, since: float | None, requests: int) -> None:
        scene.has_figures(
            outstation.labels, outstation_connected=is_up, outstation_connection_start_time_seconds=since,
            outstation_requests_total=requests, outstation_unanswered_requests_total=3)

    figures(0, None, 6)
    scene.accept(outstation).send(response(0))
    figures(1, (WALL + MINUTE) / 1000, 7)


@case
def dropped_once_a_minute(scene: Scene) -> None:
    """dropped observations are told at once, then once a minute, and where their control centre goes; and at once of the
    next one at its place"""
    scene.bend(WALL)
    outstation = scene.outstation()
    scene.start(status=True, k=1, w=1, queue=10)
    link, centre = scene.accept(outstation), scene.started()
    link.send(response(0))

    def told(it: Centre, count: str) -> None:
        scene.told(f"{it.name} {count} dropped, since too many waited")

    # Of the first events the last ten wait, and go together; of the others ten wait.
    link.confirmed(unsolicited(0, inputs(11)))
    told(centre, "1 observation")
    link.confirmed(unsolicited(1, inputs(12)))
    link.confirmed(unsolicited(2, inputs(3)))
    scene.clock.set(WALL + MINUTE - 1)
    scene.tells_nothing(LOOKS)
    scene.clock.set(WALL + MINUTE)
    told(centre, "5 observations")
    link.confirmed(unsolicited(3, inputs(2)))
    scene.leave(centre)
    told(centre, "2 observations")
    time.sleep(LOOK)
    following = scene.started()
    same("the place of the next one", following.place, centre.place)
    link.confirmed(unsolicited(4, inputs(13)))
    told(following, "3 observations")
    scene.has_figures(f'client="{centre.place}"', client_dropped_observations_total=11)


@case
def told_who_is_not_allowed(scene: Scene) -> None:
    """who isn't allowed to connect is told of once a minute, with how many more came, or where the clock was set back"""
    scene.bend(WALL)
    scene.start(options=["--allow", HOST])
    moments = [
        (0, ""), (1, None), (MINUTE - 1, None), (MINUTE, ", and 2 more"), (2 * MINUTE - 1, None),
        (-100, ", and 1 more"), (0, None), *[(MINUTE - 101, None)] * 11, (MINUTE - 100, ", and 12 more"),
    ]
    for later, more in moments:
        scene.clock.set(WALL + later)
        same_octets("the octets for who isn't allowed", Centre(scene.port, host=OTHER_HOST).rest(), b"")
        if more is None:
            scene.tells_nothing(0.02)
        else:
            scene.told(f"{OTHER_HOST} isn't allowed to connect{more}")


@case
def unreached_for_hours(scene: Scene) -> None:
    """that an outstation can't be connected is told again after an hour, and where the clock was set back"""
    scene.bend(WALL)
    outstation = scene.outstation(listens=False)
    scene.start()
    for later, is_told in ((0, True), (HOUR - 1, False), (HOUR, True), (HOUR - 1, True), (HOUR, False)):
        scene.clock.set(WALL + later)
        if is_told:
            scene.told(f"{outstation.name} not connected: connection refused")
        else:
            scene.tells_nothing(PAUSE + 0.3)


# ---- what is noted of answers

# Requests behind their control octet: to record the time, and to write it, where the clock stands.
RECORD_TIME, WRITE_TIME = b"\x18", bytes.fromhex("02 32 03 07 01") + WALL.to_bytes(6, "little")


def time_request(number: int) -> bytes:
    """The request of this number, where they record the time and write it by turns."""
    return RECORD_TIME if number % 2 else WRITE_TIME


@case
def clock_that_stays_unset(scene: Scene) -> None:
    """a clock that can't be set is told once, until the outstation doesn't ask for the time, and by an answer to the
    writing of the time alone"""
    scene.bend(WALL)
    outstation, link = scene.watched(lan_time=True, response_ms=600)

    def answer(number: int, iin: int, is_told: bool = False) -> None:
        """The request of this number is answered with an indication."""
        if number:
            link.request(number, time_request(number))
        link.send(response(number, iin=iin))
        if is_told:
            scene.told(f"{outstation.name} {TROUBLES[2]}")
        scene.tells_nothing(0.02)

    # The writing of the time by the second request is what is told of, and not that by the fourth one.
    for number, iin in enumerate((0x10, 0x10, 0x10, 0x10, 0x10, 0x00, 0x00)):
        answer(number, iin, is_told=number == 2)
    link.confirmed(bytes.fromhex("F0 82 10 00"))
    for number, iin in enumerate((0x10, 0x10, 0x00, 0x00), 7):
        answer(number, iin, is_told=number == 8)
    # Of an unsolicited response that asks for the time while it is written, or a later answer, nothing is told.
    link.confirmed(bytes.fromhex("F1 82 10 00"))
    answer(11, 0x10)
    link.request(12, WRITE_TIME)
    link.confirmed(bytes.fromhex("F2 82 10 00"))
    answer(13, 0x10)
    answer(14, 0x00)


@case
def overtaken_answer(scene: Scene) -> None:
    """an answer of which the gateway takes note behind the next request counts as one, and is at no time missing"""
    scene.bend(WALL)
    scene.passed_over = TRANSFERS
    outstation = scene.outstation(host=f"{SLOW}.60", response_ms=1500)
    scene.start(status=True)
    link = scene.accept(outstation)
    name = f"gateway_outstation_unanswered_requests_total{{{outstation.labels}}}"
    link.request(1, INTEGRITY)
    link.send(response(1))
    # This one counts, and none is told for a minute.
    scene.told(f"{outstation.name} 1 request unanswered")
    link.confirmed(bytes.fromhex("F0 82 02 00"))
    link.request(2, EVENTS)
    link.send(response(2, iin=0x02))
    link.request(3, EVENTS)
    # The gateway takes note of the second answer 0.6 s behind it.
    end = time.monotonic() + 1
    while time.monotonic() < end:
        same("unanswered requests", scene.figures()[name], 1)
    link.send(response(3))
    scene.clock.set(WALL + MINUTE)
    scene.tells_nothing(LOOKS)
    same("unanswered requests", scene.figures()[name], 1)


@case
def overtaken_settings_of_a_clock(scene: Scene) -> None:
    """a clock that can't be set is told once, and once more, where the gateway takes note of each answer behind the next
    request"""
    scene.bend(WALL)
    outstation = scene.outstation(host=f"{SLOW}.20", lan_time=True)
    scene.start(status=True)
    link = scene.accept(outstation)
    answers = [0x10, 0x10, 0x10, 0x10, 0x10, 0x00, 0x10, 0x00, 0x00]
    for number, iin in enumerate(answers):
        if number:
            link.request(number, time_request(number))
        link.send(response(number, iin=iin))
    for _ in range(2):
        scene.told(f"{outstation.name} {TROUBLES[2]}")
    scene.has_figures(
        outstation.labels, outstation_requests_total=len(answers), outstation_unanswered_requests_total=0)
    scene.has_figures(f'{outstation.labels},indication="NEED_TIME"', outstation_indication=0)


@case
def overtaken_look(scene: Scene) -> None:
    """a look that comes to what was dropped for a control centre behind the next one at its place changes nothing"""
    scene.bend(WALL)
    outstation = scene.outstation()
    scene.start(k=1, w=1, queue=10)
    link, centres = scene.accept(outstation), [scene.started() for _ in range(3)]
    link.send(response(0))

    def told(it: Centre, count: str) -> None:
        scene.told(f"{it.name} {count} dropped, since too many waited")

    scene.clock.slow(150)
    link.confirmed(unsolicited(0, inputs(11)))
    told(centres[0], "1 observation")
    # The look, which tells of the second one, knows of one observation for the third one, and doesn't come to it yet.
    link.confirmed(unsolicited(1, inputs(15)))
    scene.leave(centres[2])
    told(centres[2], "6 observations")
    time.sleep(LOOK)
    following = scene.started()
    same("the place of the next one", following.place, centres[2].place)
    told(centres[1], "1 observation")
    scene.clock.slow(0)
    link.confirmed(unsolicited(2, inputs(13)))
    told(following, "3 observations")
    for centre in centres[:2]:
        scene.leave(centre)
        told(centre, "18 observations")


# ---- the room for lines that wait

# How many lines wait at most, and how many with those of controls.
MOST_LINES, MOST_WITH_CONTROLS = 1024, 4096


def full_pipe() -> tuple[int, int]:
    """A pipe that has no room for an octet more: where it is read, and where it is written."""
    reading, writing = os.pipe()
    os.set_blocking(writing, False)
    for size in (4096, 1):
        with suppress(BlockingIOError):
            while True:
                os.write(writing, bytes(size))
    os.set_blocking(writing, True)
    return reading, writing


def waiting_in(reading: int) -> int:
    """How many octets a pipe has."""
    return int.from_bytes(ioctl(reading, FIONREAD, bytes(4)), "little")


def make_room(reading: int, most: int = 4096) -> bytes:
    """Reads a page of a pipe, once all is noted that was done, and waits until lines have come in its place."""
    time.sleep(LOOK)
    before, end = waiting_in(reading), time.monotonic() + PATIENCE
    octets = os.read(reading, most)
    while waiting_in(reading) < before - most // 4 and time.monotonic() < end:
        time.sleep(0.01)
    return octets


def toggle(centre: Centre, times: int) -> None:
    """A control centre starts data transfer and stops it ten times at once, so often."""
    for _ in range(times):
        centre.write(bytes.fromhex(START + STOP) * 10)
        for _ in range(10):
            centre.wants(START_CON)
            centre.wants(STOP_CON)


def command_in_vain(centre: Centre, times: int) -> None:
    """A control centre sends commands for an outstation that isn't there, ten at once, so often."""
    for _ in range(times):
        for _ in range(10):
            centre.ask(OFF_COMMAND)
        for _ in range(10):
            same_octets("an answer to a command", centre.asdu(), OFF_REFUSED)
    centre.acknowledge()


@case
def unread_log(scene: Scene) -> None:
    """a log that nobody reads stops nobody: the first lines wait, those of commands in room of their own, and how many
    others there were is told before the next line that finds room"""
    outstation, unreached, listen = scene.outstation(), scene.outstation(listens=False), free_place()
    controls = [it | dict(outstation=unreached.number) for it in CONTROLS]
    reading, writing = full_pipe()
    scene.run(scene.settings(dict(listen=listen), POINTS, controls), "--sessions", "1", stderr=writing)
    os.close(writing)
    link, centre = outstation.accept(), Centre(int(listen.split(":")[1]))
    link.request(0, INTEGRITY)
    link.send(response(0))
    toggle(centre, 53)
    log = make_room(reading)
    toggle(centre, 6)
    centre.start()
    command_in_vain(centre, 155)
    log += make_room(reading)
    command_in_vain(centre, 1)
    link.confirmed(unsolicited(0, OBJECTS))
    centre.takes(*SHOWN)
    centre.leave()
    with open(reading, "rb") as rest:
        log += rest.read()
    same("the status", scene.process.wait(END_LIMIT), 0)
    scene.process = None
    link.rest()
    # Beside data transfers: the start, listening, both outstations, a control centre, two ends of connections, and the end.
    judge_left_out(log.lstrip(b"\0").decode().splitlines(), 8 + 20 * 59 + 1, 20 * 156)


def judge_left_out(lines: list[str], others: int, of_controls: int) -> None:
    """Of so many events, and so many of controls, the log has the first ones, and how many were left out before the next
    one that it has."""
    notes, room = [NOTE.fullmatch(it) for it in lines], MOST_WITH_CONTROLS - MOST_LINES
    wrong = [line for line, it in zip(lines, notes) if not it or it[1] != f"<{priority_of(it[3])}>"]
    same("lines of no priority, or of another", wrong, [])
    texts = [it[3] for it in notes]
    is_of_control = [bool(re.match(r"client \d \S+ (asks|told): ", it)) for it in texts]

    def counts(what: str) -> list[tuple[int, int]]:
        return [(place, int(it.split()[0])) for place, it in enumerate(texts) if re.fullmatch(rf"\d+ events? {what}", it)]

    left_out, left_out_of_controls = counts("left out"), counts("of controls left out")
    # One line was being written while the others waited; then some found room.
    same("where it is told first how many were left out", [place for place, _ in left_out][:1], [1 + MOST_LINES])
    first = [*is_of_control, True].index(True)
    same("whether some others found room then", first > 2 + MOST_LINES, True)
    same("lines of controls that waited", sum(is_of_control[first : first + room]), room)
    same("where it is told how many of these were left out", [place for place, _ in left_out_of_controls], [first + room])
    same("whether some found room then", any(is_of_control[first + room :]), True)
    told = sum(is_of_control), len(texts) - sum(is_of_control) - len(left_out) - 1
    found = tuple(count + sum(it for _, it in places) for count, places in zip(told, (left_out_of_controls, left_out)))
    same("events of controls and others, in the log and left out", found, (of_controls, others))
