"""Cases of `checks/serve`: commands and orders where much comes together: many ends by one tick, a loss and t1, reasons of
every kind."""
import re
import time
from contextlib import suppress
from functools import partial

from framing import i_format, spelled
from harness import (
    CONTROLS, COUNTS, DOUBLE, FREE, HOSTS, OFF_COMMAND, OFF_REQUEST, OFF_WORDS, ORDER_ENDED, ORDER_GIVEN, REFUSED,
    SETPOINT, SWITCH, TAKEN, TICK, TRANSFERS, UNANSWERED, WALL, Scene, case, take_lines,
)
from peers import (
    ACTIVATION, CANCEL, CANCELLED, CONFIRMATION, NEGATIVE, START, START_CON, STOP, STOP_CON, TEST, TEST_CON, Centre,
    asdu, response, same, same_octets,
)

# Outstations and control centres, as many as there may be; how many orders of a control centre may have no outcome, since each
# holds two of 32 places; and how many wait for an outstation at most.
OUTSTATIONS, CENTRES, OWN, WAITING = 32, 8, 16, 16
# The first address of controls of which each outstation has one; t1 and the time for an answer, in milliseconds, and a time
# that is longer, in seconds.
FIRST, LONG_MS, LONGER = 6001, 40_000, 45
# How often two control centres send commands at once, how often a loss and t1 come together, and how often commands come to a
# gateway that was at rest for so many seconds.
ROUNDS, LOSSES, RESTS, REST = 10, 8, 40, 0.05
ASKED = r"client (\d) \S+ asks: double command (\d+) off, QU 0, execute, originator 0, station 1(?:: order (\d+))?"
LET_GO, OUTSTATION_LOST = "its session ended before it was given", "the outstation was lost"


def off(address: int) -> bytes:
    return asdu(46, ACTIVATION, address, "01")


# ---- ends


@case
def ends_by_one_tick(scene: Scene) -> None:
    """an order is under way to each of 32 outstations, and as many of eight control centres wait as may, when one tick finds t1
    and the time of all answers passed: each has one end, and those that are let go come first"""
    scene.bend(WALL)
    scene.is_made_to_stand = True
    scene.passed_over = rf"{TRANSFERS}|{COUNTS}|{ORDER_GIVEN}|client \d \S+ told: .+|{TAKEN}|{FREE}"
    outstations = [scene.outstation(response_ms=LONG_MS) for _ in range(OUTSTATIONS)]
    controls = [dict(outstation=it, show="double", index=6, address=FIRST + it) for it in range(OUTSTATIONS)]
    scene.start(controls=controls, t1_ms=LONG_MS)
    links = [scene.accept(it) for it in outstations]
    for link in links:
        link.send(response(0))
    centres = [scene.started() for _ in range(CENTRES)]
    for number, link in enumerate(links):
        centres[number % CENTRES].ask(off(FIRST + number))
        link.request(1, OFF_REQUEST)
    # These go on beyond their sessions. In the next ones 16 wait for each of eight outstations.
    for centre in centres:
        for act, con in ((STOP, STOP_CON), (START, START_CON)):
            centre.send(act)
            centre.wants(con)
        centre.ask(asdu(46, ACTIVATION, FIRST, "00"))
        centre.takes(asdu(46, REFUSED, FIRST, "00"))
    take_lines(scene, r"client \d \S+ asks: double command 6001 to no state, .+", CENTRES)
    for number in range(OWN):
        for centre in centres:
            centre.ask(off(FIRST + number % CENTRES), got=0)
    asked = [(int(order), int(address) - FIRST, int(client))
             for client, address, order in take_lines(scene, ASKED, OUTSTATIONS + CENTRES * OWN)]
    same("the orders", sorted(it[0] for it in asked), [*range(1, OUTSTATIONS + CENTRES * OWN + 1)])
    scene.clock.be_ahead(LONGER)
    scene.told(f"the host stood still for {LONGER}.# s", f"the host stood still for {LONGER + 1}.# s")
    ended = [(int(order), int(outstation), what, why)
             for outstation, order, what, why in take_lines(scene, ORDER_ENDED, OUTSTATIONS + CENTRES * OWN)]
    in_order = sorted(asked, key=lambda it: (it[1], it[0]))
    wanted = [(order, outstation, "let go", LET_GO) for order, outstation, _ in in_order if order > OUTSTATIONS]
    wanted += [(order, outstation, "failed", UNANSWERED) for order, outstation, _ in in_order if order <= OUTSTATIONS]
    same("what became of the orders", ended, wanted)
    for centre in centres:
        scene.closed(centre, "closed: t1 expired")
        rest = centre.rest()
        same("APDUs besides S formats", [spelled(rest[it : it + 6]) for it in range(0, len(rest), 6) if rest[it + 2] != 1], [])


@case
def loss_and_t1_at_once(scene: Scene) -> None:
    """an outstation is lost while t1 of a control centre passes: the order under way fails with it, the one that waits fails or
    is let go, and each of them has one end"""
    scene.bend(WALL)
    scene.passed_over = rf"{TRANSFERS}|{COUNTS}|{ORDER_GIVEN}|client \d \S+ (told|asks|connected|closed( again)?)\b.*"
    scene.passed_over += r"|outstation 0 \S+ (connected|lost( again)?: .+|closed: the gateway ends)"
    outstation = scene.outstation(response_ms=600_000)
    scene.start(controls=CONTROLS, t1_ms=LONG_MS)
    for number in range(LOSSES):
        link, centre = outstation.accept(), Centre(scene.port, host=next(HOSTS))
        link.send(response(link.fragment()[0] & 0x0F))
        centre.start()
        centre.ask(asdu(46, ACTIVATION, DOUBLE, "00"))
        centre.takes(asdu(46, REFUSED, DOUBLE, "00"))
        for _ in range(2):
            centre.ask(OFF_COMMAND, got=0)
        link.request(1, OFF_REQUEST)
        # Both are taken.
        centre.send(TEST)
        centre.wants(TEST_CON)
        scene.clock.be_ahead(LONGER * (number + 1))
        time.sleep(TICK * (number % 4))
        link.connection.close()
        first, second = sorted(take_lines(scene, ORDER_ENDED, 2), key=lambda it: int(it[1]))
        same("the order under way", first, ("0", str(2 * number + 1), "failed", OUTSTATION_LOST))
        same("the number of the one that waits", second[1], str(2 * number + 2))
        same("whether it failed or was let go", second[2:] in (("failed", OUTSTATION_LOST), ("let go", LET_GO)), True)
        with suppress(OSError):
            centre.rest()
        centre.connection.close()
    scene.tells_nothing(TICK)


# ---- reasons

# A command of a control centre, its words, what it is answered, and how that is told.
Command = tuple[bytes, str, bytes, str]
# Controls that have to be selected: for each of two control centres one that it holds, one that it selects again and again, and
# one that it never does. A control of an outstation that is down, and a set point that is doubled.
HELD, LIKED, UNSELECTED, DOWN, DOUBLED = 5011, 5021, 5031, 5041, 5051
WITH_SELECT = [it + own for it in (HELD, LIKED, UNSELECTED) for own in (0, 1)]


def commands_of(own: int) -> list[Command]:
    """What one of the two sends at once: each command with its words, what it is answered, and how that is told."""
    single, double, point = (partial("{} {} {}".format, it) for it in ("single command", "double command", "set point"))
    select, execute = "on, QU 0, select", "on, QU 0, execute"

    def negative(kind: int, address: int, element: str, words: str, reason: str) -> Command:
        return (asdu(kind, ACTIVATION, address, element), words, asdu(kind, REFUSED, address, element),
                f"confirmed, negative: {reason}")

    def confirmed(address: int) -> Command:
        return (asdu(45, ACTIVATION, address, "81"), single(address, select), asdu(45, CONFIRMATION, address, "81"),
                "confirmed")

    other, unselected = HELD + 1 - own, UNSELECTED + own
    return [
        confirmed(HELD + own),
        confirmed(LIKED + own),
        negative(46, DOUBLE, "03", double(DOUBLE, "to no state, QU 0, execute"), "to no state"),
        negative(45, unselected, "15", single(unselected, "on, QU 5, execute"), "QU 5 is not known"),
        negative(49, SETPOINT, "01 00 03", point(SETPOINT, "1, QL 3, execute"), "QL 3 is not known"),
        negative(49, DOUBLED, "00 40 00", point(DOUBLED, "16384, QL 0, execute"), "the value leaves 16 bits"),
        negative(46, DOWN, "01", double(DOWN, "off, QU 0, execute"), "the outstation is down"),
        negative(45, other, "81", single(other, select), "selected by another"),
        negative(45, other, "01", single(other, execute), "selected by another"),
        negative(45, unselected, "01", single(unselected, execute), "not selected"),
        (asdu(45, CANCEL, unselected, "81"), f"deactivation of {single(unselected, select)}",
         asdu(45, CANCELLED | NEGATIVE, unselected, "81"), "deactivation confirmed, negative: not selected"),
        negative(45, LIKED + own, "00", single(LIKED + own, "off, QU 0, execute"), "unlike its select"),
        negative(46, DOUBLE, "01", OFF_WORDS, "16 orders wait"),
    ]


def send_at_once(centre: Centre, commands: list[bytes]) -> None:
    """A control centre sends commands in one piece."""
    with centre.writing:
        centre.write(b"".join(i_format(centre.sent + it, centre.got, octets) for it, octets in enumerate(commands)))
        centre.sent += len(commands)


def is_told(centre: Centre, wanted: list[bytes]) -> None:
    """A control centre is told this, in this order, while S formats come too."""
    for octets in wanted:
        while (apdu := centre.apdu())[2] & 3 == 1:
            pass
        same(f"N(S) of {spelled(apdu)}", int.from_bytes(apdu[2:4], "little"), 2 * centre.got)
        same_octets("an ASDU", apdu[6:], octets)
        centre.got += 1
    centre.acknowledge()


def judge_lines(scene: Scene, centre: Centre, wanted: list[tuple[str, str]]) -> None:
    """The lines of a control centre's commands: that each came, and what it was told of it, in the order in which it sent them;
    the one before the other."""
    form = rf"{re.escape(centre.name)} (asks|told): (.+)"
    lines = take_lines(scene, form, 2 * len(wanted))
    behind = "{}, originator 0, station 1".format
    asks, told = ([(place, words) for place, (what, words) in enumerate(lines) if what == kind] for kind in ("asks", "told"))
    same("commands that came", [words for _, words in asks], [behind(words) for words, _ in wanted])
    ends = [f"{behind(words.removeprefix('deactivation of '))}: {how}" for words, how in wanted]
    same("what was told of them", [words for _, words in told], ends)
    early = [words for (asked, words), (answered, _) in zip(asks, told) if answered < asked]
    same("commands of which it is told before they came", early, [])


@case
def every_reason_at_once(scene: Scene) -> None:
    """two control centres send commands at once that are refused for each reason, again and again, while orders wait: each is
    told why, in the order of its commands, and the orders have one end each"""
    outstation, down = scene.outstation(response_ms=60_000), scene.outstation(listens=False)
    controls = [*CONTROLS, dict(outstation=1, show="double", index=6, address=DOWN)]
    controls.append(dict(outstation=0, show="setpoint", index=7, address=DOUBLED, num=2))
    controls += [dict(outstation=0, show="single", index=it, address=it, select=True) for it in WITH_SELECT]
    scene.start(sessions=2, controls=controls, k=40, w=26)
    scene.told(f"{down.name} not connected: connection refused")
    link = scene.accept(outstation)
    link.send(response(0))
    centres = [scene.started(), scene.started()]
    owners = [centres[it % 2] for it in range(WAITING + 1)]
    for number, centre in enumerate(owners, 1):
        scene.asks(centre, OFF_COMMAND, OFF_WORDS, order=number)
    scene.told(f"{outstation.name} order 1 given: {spelled(bytes([0xC1]) + OFF_REQUEST)}")
    # Each has selected its control before the other one tries it.
    for own, centre in enumerate(centres):
        words = f"single command {HELD + own} on, QU 0, select"
        scene.asks(centre, asdu(45, ACTIVATION, HELD + own, "81"), words)
        scene.answers(centre, words, (asdu(45, CONFIRMATION, HELD + own, "81"), "confirmed"))
    for _ in range(ROUNDS):
        for own, centre in enumerate(centres):
            send_at_once(centre, [it for it, *_ in commands_of(own)])
        for own, centre in enumerate(centres):
            is_told(centre, [it for _, _, it, _ in commands_of(own)])
    for own, centre in enumerate(centres):
        judge_lines(scene, centre, [(words, how) for _, words, _, how in commands_of(own)] * ROUNDS)
    link.leave()
    same("what became of the orders", take_lines(scene, ORDER_ENDED, WAITING + 1),
         [("0", str(number), "failed", OUTSTATION_LOST) for number in range(1, WAITING + 2)])
    for centre in centres:
        scene.refuses(centre, *[OUTSTATION_LOST] * owners.count(centre))
    scene.lost(outstation, "lost: end of input")


@case
def commands_on_a_gateway_at_rest(scene: Scene) -> None:
    """22 commands at once to a gateway at rest, again and again: that each came is told before what its control centre was told
    of it, and all in their order"""
    outstation = scene.outstation()
    scene.start(sessions=1, controls=CONTROLS, k=40, w=26)
    link, centre = scene.accept(outstation), scene.started()
    link.send(response(0))
    single = f"single command {SWITCH}"
    held = asdu(45, ACTIVATION, SWITCH, "81"), f"{single} on, QU 0, select", asdu(45, CONFIRMATION, SWITCH, "81"), "confirmed"
    given_up = (asdu(45, CANCEL, SWITCH, "81"), f"deactivation of {single} on, QU 0, select", asdu(45, CANCELLED, SWITCH, "81"),
                "deactivation confirmed")
    refused = (asdu(45, ACTIVATION, SWITCH, "01"), f"{single} on, QU 0, execute", asdu(45, REFUSED, SWITCH, "01"),
               "confirmed, negative: not selected")
    commands = [refused, held, given_up] * 7 + [refused]
    for _ in range(RESTS):
        time.sleep(REST)
        send_at_once(centre, [it for it, *_ in commands])
        is_told(centre, [it for _, _, it, _ in commands])
    judge_lines(scene, centre, [(words, how) for _, words, _, how in commands] * RESTS)
    link.quiet(TICK)
