"""Cases of `checks/serve`: commands and the orders that they become: what is done, what is refused and why, and how that is
told."""
import re
import time
from functools import partial
from statistics import median

from framing import spelled
from harness import (
    CONTROLS, COUNTS, DOUBLE, LOOKS, MINUTE, NOT_SUPPORTED, OFF_COMMAND, OFF_GIVEN, OFF_REFUSED, OFF_REQUEST, OFF_WORDS,
    ORDER_ENDED, ORDER_GIVEN, REFUSED, SETPOINT, SWITCH, TICK, TRANSFERS, UNANSWERED, WALL, Scene, case, take_lines,
    within,
)
from peers import (
    ACTIVATION, CANCEL, CANCELLED, CONFIRMATION, DIRECT_OPERATE, NEGATIVE, OPERATE, PATIENCE, SELECT, START, START_CON,
    STOP, STOP_CON, TERMINATION, Centre, Difference, analog, asdu, latch, response, same, same_octets, under,
)

# A set point that is doubled on its way to the outstation.
DOUBLED = 5004
# How many orders wait for an outstation at most, and how many commands follow each other.
WAITING, IN_A_ROW = 16, 40
# The types that the gateway takes of a control centre; the others in control direction by their short names (IEC 60870-5-101,
# 7.2.1; IEC 60870-5-104, 8), and some that have none there.
KNOWN_TYPES = {45, 46, 49, 100, 101, 102}
UNKNOWN_TYPES = {
    47: " (C_RC_NA_1)", 48: " (C_SE_NA_1)", 50: " (C_SE_NC_1)", 51: " (C_BO_NA_1)", 58: " (C_SC_TA_1)", 59: " (C_DC_TA_1)",
    60: " (C_RC_TA_1)", 61: " (C_SE_TA_1)", 62: " (C_SE_TB_1)", 63: " (C_SE_TC_1)", 64: " (C_BO_TA_1)", 103: " (C_CS_NA_1)",
    104: " (C_TS_NA_1)", 105: " (C_RP_NA_1)", 106: " (C_CD_NA_1)", 107: " (C_TS_TA_1)", 110: " (P_ME_NA_1)",
    111: " (P_ME_NB_1)", 112: " (P_ME_NC_1)", 113: " (P_AC_NA_1)", 0: "", 1: "", 52: "", 65: "", 120: "", 255: "",
}
# The common address under which the second of two control centres asks.
OTHER_STATION = 258
# The names of control statuses (IEEE Std 1815-2012, the table of control status codes).
STATUSES = {
    0: "success", 1: "timeout", 2: "no select", 3: "format error", 4: "not supported", 5: "already active",
    6: "hardware error", 7: "local", 8: "too many objects", 9: "not authorized", 10: "automation inhibit",
    11: "processing limited", 12: "out of range", 13: "downstream local", 14: "already complete", 15: "blocked",
    16: "canceled", 17: "blocked by another master", 18: "downstream failure", 126: "non participating", 127: "undefined",
}


# ---- orders


@case
def selected_switch(scene: Scene) -> None:
    """a command is selected and executed, given to its outstation, and its outcome told"""
    outstation, link, centre = scene.operating()
    selects = "single command 5001 on, QU 0, select"
    scene.asks(centre, asdu(45, ACTIVATION, SWITCH, "81"), selects)
    scene.answers(centre, selects, (asdu(45, CONFIRMATION, SWITCH, "81"), "confirmed"))
    executes = "single command 5001 on, QU 0, execute"
    scene.asks(centre, asdu(45, ACTIVATION, SWITCH, "01"), executes, order=1)
    link.operated(1, DIRECT_OPERATE, latch(3, True))
    given = spelled(bytes([0xC1, DIRECT_OPERATE]) + latch(3, True))
    scene.told(f"{outstation.name} order 1 given: {given}")
    scene.told(f"{outstation.name} order 1 done")
    scene.answers(centre, executes, (asdu(45, CONFIRMATION, SWITCH, "01"), "confirmed"),
                  (asdu(45, TERMINATION, SWITCH, "01"), "terminated"))
    # It isn't selected any more. Another selection is taken back.
    scene.asks(centre, asdu(45, ACTIVATION, SWITCH, "01"), executes)
    scene.answers(centre, executes, (asdu(45, CONFIRMATION | NEGATIVE, SWITCH, "01"), "confirmed, negative: not selected"))
    scene.asks(centre, asdu(45, ACTIVATION, SWITCH, "81"), selects)
    scene.answers(centre, selects, (asdu(45, CONFIRMATION, SWITCH, "81"), "confirmed"))
    scene.asks(centre, asdu(45, CANCEL, SWITCH, "81"), f"deactivation of {selects}")
    scene.answers(centre, selects, (asdu(45, CANCELLED, SWITCH, "81"), "deactivation confirmed"))
    link.quiet(0.2)


@case
def set_point(scene: Scene) -> None:
    """a set point goes to its outstation by SELECT and OPERATE"""
    outstation, link, centre = scene.operating()
    words = "set point 5002 -2, QL 0, execute"
    scene.asks(centre, asdu(49, ACTIVATION, SETPOINT, "FE FF 00"), words, order=1)
    for number, function in ((1, SELECT), (2, OPERATE)):
        link.operated(number, function, analog(4, -2))
        given = spelled(bytes([0xC0 | number, function]) + analog(4, -2))
        scene.told(f"{outstation.name} order 1 given: {given}")
    scene.told(f"{outstation.name} order 1 done")
    scene.answers(centre, words, (asdu(49, CONFIRMATION, SETPOINT, "FE FF 00"), "confirmed"),
                  (asdu(49, TERMINATION, SETPOINT, "FE FF 00"), "terminated"))


@case
def refused_order(scene: Scene) -> None:
    """an outstation that answers that it doesn't operate an output"""
    outstation, link, centre = scene.operating()
    scene.asks(centre, OFF_COMMAND, OFF_WORDS, order=1)
    link.operated(1, DIRECT_OPERATE, latch(6, False), latch(6, False, status=4))
    scene.told(f"{outstation.name} order 1 given: {OFF_GIVEN}")
    reason = "the outstation answered DIRECT_OPERATE with status 4 (not supported)"
    scene.told(f"{outstation.name} order 1 failed: {reason}")
    scene.refuses(centre, reason)


@case
def unanswered_order(scene: Scene) -> None:
    """an outstation that doesn't answer a command, or does so late, which means nothing"""
    outstation, link, centre = scene.operating(response_ms=300)
    scene.asks(centre, OFF_COMMAND, OFF_WORDS, order=1)
    link.request(1, OFF_REQUEST)
    _, began = scene.told(f"{outstation.name} order 1 given: {OFF_GIVEN}")
    reason = "no answer to DIRECT_OPERATE in time"
    _, at = scene.told(f"{outstation.name} order 1 failed: {reason}")
    within("the failure", at - began, 0.3, 0.3 + TICK)
    scene.refuses(centre, reason)
    link.send(response(1, latch(6, False)))
    centre.quiet(0.2)


@case
def lost_order(scene: Scene) -> None:
    """an order under way ends with the connection to its outstation, and isn't given again behind the return"""
    outstation, link, centre = scene.operating()
    scene.asks(centre, OFF_COMMAND, OFF_WORDS, order=1)
    link.request(1, OFF_REQUEST)
    scene.told(f"{outstation.name} order 1 given: {OFF_GIVEN}")
    # This order waits, and fails with the first one.
    scene.asks(centre, OFF_COMMAND, OFF_WORDS, order=2)
    link.leave()
    for number in (1, 2):
        scene.told(f"{outstation.name} order {number} failed: the outstation was lost")
    scene.refuses(centre, "the outstation was lost", "the outstation was lost")
    scene.lost(outstation, "lost: end of input")
    scene.asks(centre, OFF_COMMAND, OFF_WORDS)
    scene.refuses(centre, "the outstation is down")
    link = scene.accept(outstation)
    link.send(response(0))
    link.quiet(0.2)


@case
def orders_let_go(scene: Scene) -> None:
    """orders that wait are let go where their session ends, and the one under way isn't; the status counts them"""
    outstation, link, centre = scene.operating(sessions=2, status=True)
    scene.asks(centre, OFF_COMMAND, OFF_WORDS, order=1)
    link.request(1, OFF_REQUEST)
    scene.told(f"{outstation.name} order 1 given: {OFF_GIVEN}")

    def counts(**wanted: int) -> None:
        scene.has_figures(outstation.labels, **{f"outstation_{name}": value for name, value in wanted.items()})

    scene.asks(centre, OFF_COMMAND, OFF_WORDS, order=2)
    counts(orders_total=2, waiting_orders=2)
    centre.send(STOP)
    scene.told(f"{outstation.name} order 2 let go: its session ended before it was given")
    centre.wants(STOP_CON)
    centre.start()
    scene.asks(centre, OFF_COMMAND, OFF_WORDS, order=3)
    scene.leave(centre)
    scene.told(f"{outstation.name} order 3 let go: its session ended before it was given")
    counts(orders_total=3, let_go_orders_total=2, waiting_orders=1)
    link.send(response(1, latch(6, False)))
    scene.told(f"{outstation.name} order 1 done")
    counts(orders_total=3, done_orders_total=1, failed_orders_total=0, let_go_orders_total=2, waiting_orders=0)
    # Another control centre is told nothing of them.
    scene.started().quiet(0.2)


@case
def no_outstation_for_orders(scene: Scene) -> None:
    """a command for an outstation that was never reached, and commands for no control"""
    outstation = scene.outstation(listens=False)
    scene.start(sessions=1, controls=CONTROLS)
    scene.told(f"{outstation.name} not connected: connection refused")
    centre = scene.started()
    scene.asks(centre, OFF_COMMAND, OFF_WORDS)
    scene.refuses(centre, "the outstation is down")
    words = "double command 5001 off, QU 0, execute"
    scene.asks(centre, asdu(46, ACTIVATION, SWITCH, "01"), words)
    unknown = asdu(46, 47 | NEGATIVE, SWITCH, "01")
    scene.answers(centre, words, (unknown, "unknown object address, negative"))


@case
def orders_at_once(scene: Scene) -> None:
    """orders go to their outstation at once, and not with the clock's next tick"""
    scene.passed_over = rf"{TRANSFERS}|.* (asks|told|order \d+ (given|done)).*"
    _, link, centre = scene.operating()
    times = []
    for number in range(1, 21):
        began = time.monotonic()
        centre.ask(OFF_COMMAND)
        link.request(number, OFF_REQUEST)
        times.append(time.monotonic() - began)
        link.send(response(number, latch(6, False)))
        centre.takes(asdu(46, CONFIRMATION, DOUBLE, "01"), asdu(46, TERMINATION, DOUBLE, "01"))
    if median(times) > TICK / 4:
        raise Difference(f"an order: wanted {TICK / 4} s, got {median(times):.3f} s")


# ---- reasons


def is_refused(
    scene: Scene, centre: Centre, kind: int, address: int, element: str, words: str, reason: str,
    cause: int = ACTIVATION, told: tuple[int, str] = (REFUSED, "confirmed"),
) -> None:
    """A command is confirmed negatively, for a reason."""
    before = "deactivation of " if cause == CANCEL else ""
    scene.asks(centre, asdu(kind, cause, address, element), before + words)
    scene.answers(centre, words, (asdu(kind, told[0], address, element), f"{told[1]}, negative: {reason}"))


@case
def refused_commands(scene: Scene) -> None:
    """each reason for which a command is confirmed negatively, as it is told"""
    outstation = scene.outstation()
    doubled = dict(outstation=0, show="setpoint", index=7, address=DOUBLED, num=2)
    scene.start(sessions=2, controls=[*CONTROLS, doubled])
    link = scene.accept(outstation)
    link.send(response(0))
    centre, other = scene.started(), scene.started()
    switch = f"single command {SWITCH}"
    is_refused(scene, centre, 46, DOUBLE, "03", f"double command {DOUBLE} to no state, QU 0, execute", "to no state")
    is_refused(scene, centre, 45, SWITCH, "15", f"{switch} on, QU 5, execute", "QU 5 is not known")
    is_refused(scene, centre, 49, SETPOINT, "01 00 03", f"set point {SETPOINT} 1, QL 3, execute", "QL 3 is not known")
    is_refused(scene, centre, 49, DOUBLED, "00 40 00", f"set point {DOUBLED} 16384, QL 0, execute", "the value leaves 16 bits")
    is_refused(scene, centre, 45, SWITCH, "01", f"{switch} on, QU 0, execute", "not selected")
    is_refused(scene, centre, 45, SWITCH, "81", f"{switch} on, QU 0, select", "not selected", CANCEL,
            (CANCELLED | NEGATIVE, "deactivation confirmed"))
    # The one selects it; the other can do neither, and the one nothing else.
    scene.asks(centre, asdu(45, ACTIVATION, SWITCH, "81"), f"{switch} on, QU 0, select")
    scene.answers(centre, f"{switch} on, QU 0, select", (asdu(45, CONFIRMATION, SWITCH, "81"), "confirmed"))
    is_refused(scene, other, 45, SWITCH, "81", f"{switch} on, QU 0, select", "selected by another")
    is_refused(scene, other, 45, SWITCH, "01", f"{switch} on, QU 0, execute", "selected by another")
    is_refused(scene, centre, 45, SWITCH, "00", f"{switch} off, QU 0, execute", "unlike its select")
    link.quiet(0.2)


@case
def orders_that_wait(scene: Scene) -> None:
    """the 17th order that would wait is refused; each that waits fails with its outstation, and all clients are told why"""
    outstation, link, centre = scene.operating(sessions=3)
    centres, lost = [centre, scene.started(), scene.started()], "the outstation was lost"
    # One is under way.
    owners = [centres[number % 3] for number in range(WAITING + 1)]
    for number, centre in enumerate(owners, 1):
        scene.asks(centre, OFF_COMMAND, OFF_WORDS, order=number)
    scene.told(f"{outstation.name} order 1 given: {OFF_GIVEN}")
    scene.asks(centre, OFF_COMMAND, OFF_WORDS)
    scene.refuses(centre, "16 orders wait")
    link.leave()
    for number in range(1, len(owners) + 1):
        scene.told(f"{outstation.name} order {number} failed: {lost}")
    for centre in centres:
        scene.refuses(centre, *[lost] * owners.count(centre))
    scene.lost(outstation, "lost: end of input")


@case
def failed_orders(scene: Scene) -> None:
    """which request an outstation refused, with which status by number and name, which it answered otherwise, and which it
    didn't answer"""
    outstation, link, centre = scene.operating(response_ms=300)
    words, operated = f"set point {SETPOINT} -2, QL 0, execute", analog(4, -2)
    number = request = 0

    def fails(reason: str, *answers: bytes | None) -> None:
        """The next order is answered so, request by request, and fails."""
        nonlocal number, request
        number += 1
        scene.asks(centre, asdu(49, ACTIVATION, SETPOINT, "FE FF 00"), words, order=number)
        for function, answer in zip((SELECT, OPERATE), answers):
            request += 1
            link.request(request % 16, bytes([function]) + operated)
            given = bytes([0xC0 | request % 16, function]) + operated
            scene.told(f"{outstation.name} order {number} given: {spelled(given)}")
            if answer is not None:
                link.send(response(request, answer))
        scene.told(f"{outstation.name} order {number} failed: {reason}")
        scene.answers(centre, words, (asdu(49, REFUSED, SETPOINT, "FE FF 00"), f"confirmed, negative: {reason}"))

    fails("the outstation answered SELECT with status 7 (local)", analog(4, -2, status=7))
    fails("the outstation answered OPERATE with status 10 (automation inhibit)", operated, analog(4, -2, status=10))
    fails("the outstation answered OPERATE with status 99", operated, analog(4, -2, status=99))
    fails("the outstation answered SELECT otherwise", b"")
    fails("the outstation answered OPERATE otherwise", operated, analog(4, -1))
    fails("no answer to OPERATE in time", operated, None)
    fails("no answer to SELECT in time", None)


@case
def reasons_of_sessions(scene: Scene) -> None:
    """a reason goes with its own answer: where a command is refused while an order is under way, and where an order of an
    earlier session fails, of which nobody is told"""
    outstation, link, centre = scene.operating()
    status = "the outstation answered DIRECT_OPERATE with status 4 (not supported)"
    switch = f"single command {SWITCH} on, QU 0, execute"

    def given(number: int) -> None:
        """An order is asked for, and given."""
        scene.asks(centre, OFF_COMMAND, OFF_WORDS, order=number)
        link.request(number, OFF_REQUEST)
        scene.told(f"{outstation.name} order {number} given: {spelled(bytes([0xC0 | number, DIRECT_OPERATE]) + latch(6, False))}")

    given(1)
    is_refused(scene, centre, 45, SWITCH, "01", switch, "not selected")
    link.send(response(1, latch(6, False, status=4)))
    scene.told(f"{outstation.name} order 1 failed: {status}")
    scene.refuses(centre, status)
    given(2)
    for act, con in ((STOP, STOP_CON), (START, START_CON)):
        centre.send(act)
        centre.wants(con)
    link.send(response(2, latch(6, False, status=4)))
    scene.told(f"{outstation.name} order 2 failed: {status}")
    is_refused(scene, centre, 46, DOUBLE, "00", f"double command {DOUBLE} to no state, QU 0, execute", "to no state")


@case
def lines_in_order(scene: Scene) -> None:
    """what a client asks is told before what it is told of that, and what becomes of an order between the two"""
    _, link, centre = scene.operating()
    for number in range(1, IN_A_ROW + 1):
        centre.ask(OFF_COMMAND)
        link.operated(number, DIRECT_OPERATE, latch(6, False), latch(6, False, status=4))
        centre.takes(OFF_REFUSED)
        centre.ask(asdu(45, ACTIVATION, SWITCH, "01"))
        centre.takes(asdu(45, REFUSED, SWITCH, "01"))
    wanted = []
    for number in range(1, IN_A_ROW + 1):
        wanted += ["asks", f"order {number} given", f"order {number} failed", "told", "asks", "told"]
    with scene.noted:
        scene.noted.wait_for(lambda: len(scene.notes) >= len(wanted), PATIENCE)
        lines = [re.search(r" (asks|told|order \d+ (?:given|failed)):", text) for text, _ in scene.notes]
        scene.notes.clear()
    same("lines of commands", [it and it[1] for it in lines], wanted)


# ---- answers of every kind


@case
def each_status(scene: Scene) -> None:
    """each control status with which an outstation gives a command back: by number and name, once, and 0 alone is done"""
    scene.passed_over = rf"{TRANSFERS}|{COUNTS}|{ORDER_GIVEN}|client \d \S+ asks: .+"
    _, link, centre = scene.operating(poll_ms=600_000)
    reasons = [f"the outstation answered DIRECT_OPERATE with status {it}" + (f" ({STATUSES[it]})" if it in STATUSES else "")
               for it in range(256)]
    for status in range(256):
        centre.ask(OFF_COMMAND)
        link.operated(status + 1, DIRECT_OPERATE, latch(6, False), latch(6, False, status=status))
        centre.takes(*([OFF_REFUSED] if status else [asdu(46, it, DOUBLE, "01") for it in (CONFIRMATION, TERMINATION)]))
    same("what became of the orders", take_lines(scene, ORDER_ENDED, 256),
         [("0", "1", "done", None), *(("0", str(it + 1), "failed", reasons[it]) for it in range(1, 256))])
    told = [words for words, in take_lines(scene, r"client \d \S+ told: .+, station 1: (.+)", 257)]
    same("what was told", told, ["confirmed", "terminated", *(f"confirmed, negative: {it}" for it in reasons[1:])])


@case
def answers_late_twice_and_in_pieces(scene: Scene) -> None:
    """an answer that comes late, one that comes twice, and some of two fragments, of which the last one counts: each order has
    one end, and its client one answer"""
    scene.passed_over = rf"{TRANSFERS}|{COUNTS}|{ORDER_GIVEN}|client \d \S+ (asks|told): .+"
    _, link, centre = scene.operating(response_ms=1000)
    echo = partial(latch, 6, False)

    def first(number: int, objects: bytes) -> bytes:
        return bytes([0x80 | number % 16, 0x81, 0, 0]) + objects

    def last(number: int, objects: bytes) -> bytes:
        return bytes([0x40 | number % 16, 0x81, 0, 0]) + objects

    def asked() -> int:
        """The number of the request of the next order."""
        centre.ask(OFF_COMMAND)
        fragment = link.fragment()
        same_octets("a request", fragment[1:], OFF_REQUEST)
        return fragment[0] & 0x0F

    def ends(order: int, what: str, why: str | None = None) -> None:
        """The order ends so, its client is told that, and nothing else comes of it."""
        same("what became of an order", take_lines(scene, ORDER_ENDED, 1), [("0", str(order), what, why)])
        centre.takes(*([asdu(46, it, DOUBLE, "01") for it in (CONFIRMATION, TERMINATION)] if what == "done" else [OFF_REFUSED]))
        centre.acknowledge()
        centre.quiet(TICK)

    late = asked()
    ends(1, "failed", UNANSWERED)
    link.send(response(late, echo()))
    number = asked()
    link.send(response(late, echo()))
    link.send(response(number, echo(4)))
    ends(2, "failed", NOT_SUPPORTED)
    link.send(response(number, echo()))
    for order, (one, other, what, why) in enumerate([
        (echo(), b"", "failed", "the outstation answered DIRECT_OPERATE otherwise"),
        (echo(4), echo(), "done", None),
        (echo(), echo(4), "failed", NOT_SUPPORTED),
    ], 3):
        number = asked()
        link.send(first(number, one))
        link.send(last(number + 1, other))
        ends(order, what, why)
        link.send(last(number + 1, other))
    number = asked()
    link.send(first(number, echo()))
    ends(6, "failed", UNANSWERED)
    link.send(last(number + 1, echo()))
    number = asked()
    link.send(response(number, echo()))
    ends(7, "done")


# ---- commands in words


def by(originator: int, octets: bytes) -> bytes:
    """An ASDU of this originator."""
    return octets[:3] + bytes([originator]) + octets[4:]


SINGLE, DOUBLE_WORDS, SET = "single command 5001", "double command 5003", "set point 5002"
CONFIRMED = CONFIRMATION, "confirmed"
NO_STATE, UNKNOWN_QUALIFIER = ((CONFIRMATION | NEGATIVE, f"confirmed, negative: {it}") for it in ("to no state", "QU 31 is not known"))
# Commands: their octets, what tells of their cause, their words, and what they are answered.
COMMANDS_IN_WORDS = [
    (by(9, asdu(45, ACTIVATION, SWITCH, "81")), "", f"{SINGLE} on, QU 0, select, originator 9, station 1", CONFIRMED),
    (asdu(45, ACTIVATION, SWITCH, "FC"), "", f"{SINGLE} off, QU 31, select, originator 0, station 1", UNKNOWN_QUALIFIER),
    (asdu(46, ACTIVATION, DOUBLE, "85"), "", f"{DOUBLE_WORDS} off, QU 1, select, originator 0, station 1", CONFIRMED),
    (asdu(46, ACTIVATION, DOUBLE, "8A"), "", f"{DOUBLE_WORDS} on, QU 2, select, originator 0, station 1", CONFIRMED),
    (asdu(46, ACTIVATION, DOUBLE, "00"), "", f"{DOUBLE_WORDS} to no state, QU 0, execute, originator 0, station 1",
     NO_STATE),
    (asdu(46, ACTIVATION, DOUBLE, "03"), "", f"{DOUBLE_WORDS} to no state, QU 0, execute, originator 0, station 1",
     NO_STATE),
    (asdu(49, ACTIVATION, SETPOINT, "FF 7F 80"), "", f"{SET} 32767, QL 0, select, originator 0, station 1", CONFIRMED),
    (by(255, asdu(49, CANCEL, SETPOINT, "00 80 83")), "deactivation of ",
     f"{SET} -32768, QL 3, select, originator 255, station 1", (CANCELLED, "deactivation confirmed")),
    (asdu(49, CANCEL, SETPOINT, "00 00 80"), "deactivation of ", f"{SET} 0, QL 0, select, originator 0, station 1",
     (CANCELLED | NEGATIVE, "deactivation confirmed, negative: not selected")),
    (under(258, asdu(49, CANCEL, SETPOINT, "FE FF 83")), "deactivation of ",
     f"{SET} -2, QL 3, select, originator 0, station 258", (NEGATIVE | 46, "unknown common address, negative")),
    (asdu(46, ACTIVATION, SETPOINT, "01"), "", "double command 5002 off, QU 0, execute, originator 0, station 1",
     (NEGATIVE | 47, "unknown object address, negative")),
    (asdu(45, 3, SWITCH, "00"), "cause 3 of ", f"{SINGLE} off, QU 0, execute, originator 0, station 1",
     (NEGATIVE | 45, "unknown cause, negative")),
]


@case
def commands_in_words(scene: Scene) -> None:
    """commands in words: their states, qualifiers, causes, bits, originators and stations, and what they are answered"""
    outstation, link, centre = scene.operating()
    for command, cause, words, (answer, told) in COMMANDS_IN_WORDS:
        centre.ask(command)
        scene.told(f"{centre.name} asks: {cause}{words}")
        centre.takes(command[:2] + bytes([answer]) + command[3:])
        scene.told(f"{centre.name} told: {words}: {told}")
    # With P/N and T, with one of them, and an order.
    words = f"{SINGLE} off, QU 0, execute, originator 0, station 1"
    for bits, behind in ((0xC0, ", with P/N, a test"), (0x40, ", with P/N"), (0x80, ", a test")):
        centre.ask(asdu(45, bits | 3, SWITCH, "00"))
        scene.told(f"{centre.name} asks: cause 3 of {words}{behind}")
        centre.takes(asdu(45, bits | NEGATIVE | 45, SWITCH, "00"))
        scene.told(f"{centre.name} told: {words}: unknown cause, negative")
    command, words = by(7, OFF_COMMAND), f"{DOUBLE_WORDS} off, QU 0, execute, originator 7, station 1"
    centre.ask(command)
    scene.told(f"{centre.name} asks: {words}: order 1")
    link.operated(1, DIRECT_OPERATE, latch(6, False))
    scene.told(f"{outstation.name} order 1 given: {OFF_GIVEN}")
    scene.told(f"{outstation.name} order 1 done")
    for cause, told in ((CONFIRMATION, "confirmed"), (TERMINATION, "terminated")):
        centre.takes(command[:2] + bytes([cause]) + command[3:])
        scene.told(f"{centre.name} told: {words}: {told}")


# ---- types that aren't known


@case
def unknown_types(scene: Scene) -> None:
    """ASDUs of types that aren't known in control direction are told at once, and then once a minute, with the last one and how
    many came before it, of each client"""
    scene.bend(WALL)
    _, link, centre = scene.operating(sessions=2)

    def ask(it: Centre, kind: int, address: int) -> None:
        """A control centre asks by an ASDU of an unknown type, which comes back."""
        it.ask(asdu(kind, ACTIVATION, address, "00"))
        it.takes(asdu(kind, NEGATIVE | 44, address, "00"))

    ask(centre, 58, SWITCH)
    scene.told(f"{centre.name} asks: type 58 (C_SC_TA_1) {SWITCH}, station 1: unknown type")
    for kind, address in ((58, SWITCH), (50, 4711), (103, 0)):
        ask(centre, kind, address)
    scene.clock.set(WALL + MINUTE - 1)
    scene.tells_nothing(LOOKS)
    scene.clock.set(WALL + MINUTE)
    scene.told(f"{centre.name} asks: type 103 (C_CS_NA_1) 0, station 1: unknown type, and 2 more")
    other = scene.started()
    ask(other, 200, 1)
    scene.told(f"{other.name} asks: type 200 1, station 1: unknown type")
    link.quiet(0.1)


@case
def each_unknown_type(scene: Scene) -> None:
    """each type that isn't known in control direction, by its name, its object's address and its station: a line a minute for
    each of two control centres; and of all types within a minute the first one, the last one, and how many came between"""
    scene.bend(WALL)
    _, link, centre = scene.operating(sessions=2)
    centres, at = [(1, centre), (OTHER_STATION, scene.started())], WALL

    def asks(station: int, it: Centre, kind: int, address: int, size: int | None = None) -> None:
        """A control centre asks for something, which comes back; with so many octets, if that is said."""
        asked, returned = (under(station, asdu(kind, cause, address, "00"))[:size] for cause in (ACTIVATION, NEGATIVE | 44))
        it.ask(asked)
        it.takes(returned)

    def line(station: int, it: Centre, what: str) -> str:
        return f"{it.name} asks: type {what}, station {station}: unknown type"

    for number, (kind, name) in enumerate(UNKNOWN_TYPES.items()):
        for station, it in centres:
            asks(station, it, kind, 70_000 + number)
            scene.told(line(station, it, f"{kind}{name} {70_000 + number}"))
        at += MINUTE
        scene.clock.set(at)
    # Without an address, and with two of its octets.
    for size in (6, 8):
        for station, it in centres:
            asks(station, it, 58, 0, size)
            scene.told(line(station, it, "58 (C_SC_TA_1)"))
        at += MINUTE
        scene.clock.set(at)
    unknown = [it for it in range(256) if it not in KNOWN_TYPES]
    for kind in unknown:
        for station, it in centres:
            asks(station, it, kind, kind + 1)
    for station, it in centres:
        scene.told(line(station, it, "0 1"))
    scene.tells_nothing(LOOKS)
    scene.clock.set(at + MINUTE)
    for station, it in centres:
        scene.told(line(station, it, "255 256") + f", and {len(unknown) - 2} more")
    link.quiet(0.1)
