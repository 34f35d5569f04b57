"""Cases of `checks/serve`: control centres whatever they do: how they are answered and closed, and which keep their places
where all are taken."""
import threading
import time
from contextlib import suppress

from framing import i_format, s_format, spelled, u_format
from harness import (
    BINARY, BINARY_OFF, BINARY_ON, DEAF, DEAF_MS, DEAF_SECONDS, FREE, GAVE_WAY, HOSTS, LOOK, MINUTE, OFF, ON,
    OPENING, OTHER_HOST, READ, RECONNECTS, SLACK, TAKEN, TICK, WALL, Scene, alone, case, count_up, point, within,
)
from peers import (
    ACTIVATION, CONFIRMATION, HOST, INTERROGATED, PATIENCE, REQUESTED, START, START_CON, STOP, STOP_CON, TERMINATION,
    TEST, TEST_CON, WITNESSED, Centre, Difference, Ended, asdu, general, response, same, same_octets, under,
    unsolicited,
)
from program import resources

# After how many connections the process is measured first, and how many kB of memory more the rest of them may leave.
FIRST_RECONNECTS, GROWTH_KB = 2000, 256


# ---- octets, windows and timers


@case
def two_stations(scene: Scene) -> None:
    """two outstations, each with a common address of its own and a point with the same address, are interrogated apart and
    together"""
    links = [scene.outstation(common_address=common) for common in (7, 9)]
    points = [point(number, "binary", 5, BINARY) for number in (0, 1)]
    scene.begin(scene.settings({}, points), sessions=1)
    first, second = [scene.accept(it) for it in links]
    centre = scene.started()
    first.send(response(0, ON))
    centre.takes(under(7, BINARY_ON))
    second.send(response(0, OFF))
    centre.takes(under(9, BINARY_OFF))

    def act(common: int, cause: int) -> bytes:
        return under(common, general(cause))

    def answer(common: int, state: str) -> list[bytes]:
        """What an interrogation of one station is answered."""
        return [act(common, CONFIRMATION), under(common, asdu(1, INTERROGATED, BINARY, state)), act(common, TERMINATION)]

    centre.ask(act(9, ACTIVATION))
    centre.takes(*answer(9, "00"))
    centre.ask(act(65535, ACTIVATION))
    centre.takes(*answer(7, "01"), *answer(9, "00"))
    # The station's own address is none of an outstation.
    centre.ask(act(1, ACTIVATION))
    centre.takes(act(1, 0x40 | 46))


@case
def slow_client(scene: Scene) -> None:
    """a control centre whose octets come one by one"""
    outstation = scene.outstation()
    scene.start(sessions=1)
    scene.accept(outstation)
    centre = scene.client()
    centre.write(bytes.fromhex(START), apart=0.005)
    centre.wants(START_CON)
    centre.interrogate(*OPENING, apart=0.005)


@case
def closed_clients(scene: Scene) -> None:
    """each way in which a control centre is closed for what it sends, and how many were"""
    scene.start(witness=True, status=True)
    starts = bytes.fromhex(START)
    read = asdu(102, REQUESTED, WITNESSED, "")
    ways = [
        (i_format(0, 0, general(ACTIVATION)), "closed: an I format before STARTDT"),
        (starts + i_format(1, 0, general(ACTIVATION)), "closed: a wrong sequence number"),
        (starts + s_format(32767), "closed: a wrong sequence number"),
        (starts + i_format(0, 0, read + b"\x00"), "closed: an ASDU of a wrong length or number of objects"),
        (starts + b"".join(i_format(n, 0, read) for n in range(60)), "closed: more than 32 answers would wait"),
        (b"\x00", "lost: no APDUs came: a start octet other than 0x68"),
        (b"\x68\x03", "lost: no APDUs came: a length outside 4 to 253"),
        (u_format(0x0F), "lost: no APDUs came: a control field of no format"),
    ]
    for octets, why in ways:
        centre = scene.client()
        centre.write(octets)
        scene.closed(centre, why)
        with suppress(ConnectionResetError):
            centre.rest()
        centre.connection.close()
    same("closes", scene.closes(), dict(t1=0, sequence=2, not_started=1, malformed=1, flooded=1, lost=3))


@case
def idle_client(scene: Scene) -> None:
    """t3 tests a connection, and t1 closes it"""
    scene.start(sessions=1, t1_ms=600, t2_ms=300, t3_ms=500)
    centre = scene.client()
    for number in range(2):
        centre.wants(TEST)
        began = time.monotonic()
        centre.send(TEST_CON)
    centre.wants(TEST)
    within("a test", time.monotonic() - began, 0.5, 0.5 + TICK)
    began = time.time()
    same_octets("the octets behind the last test", centre.rest(), b"")
    within("the close", scene.closed(centre, "closed: t1 expired") - began, 0.55, 0.6 + TICK + LOOK)


@case
def windows(scene: Scene) -> None:
    """k, w and t2, and the order in which answers are sent"""
    outstation = scene.outstation(listens=False)
    scene.start(sessions=1, k=2, w=2, t2_ms=1000)
    scene.told(f"{outstation.name} not connected: connection refused")
    centre = scene.started()
    centre.ask(general(ACTIVATION))
    binary, analog = OPENING
    answer = asdu(1, REQUESTED, BINARY, "C0")
    centre.takes(general(CONFIRMATION), binary)
    # Without acknowledgement nothing more comes but those that are owed: after t2, and behind the second I format.
    began = time.monotonic()
    centre.ask(READ, got=0)
    centre.wants(spelled(s_format(2)))
    within("t2", time.monotonic() - began, 1.0, 1.0 + TICK)
    began = time.monotonic()
    centre.ask(READ, got=0)
    centre.ask(READ, got=0)
    centre.wants(spelled(s_format(4)))
    within("w", time.monotonic() - began, 0, 0.5 - SLACK)
    for asdus in ([answer, answer], [answer, analog], [general(TERMINATION)]):
        centre.acknowledge()
        centre.takes(*asdus)


@case
def stopped_client(scene: Scene) -> None:
    """STOPDT while news wait"""
    outstation = scene.outstation()
    scene.start(sessions=1, k=1, w=1)
    link, centre = scene.accept(outstation), scene.client()
    link.send(response(0))
    centre.start()
    events = [bytes.fromhex("02 01 17 01 05") + bytes([state]) for state in (0x81, 0x01, 0x81, 0x01)]
    link.confirmed(unsolicited(0, events[0]))
    centre.takes(BINARY_ON)
    for number in (1, 2):
        link.confirmed(unsolicited(number, events[number]))
    centre.send(STOP)
    centre.wants(STOP_CON)
    centre.acknowledge()
    centre.quiet(0.3)
    centre.start()
    centre.quiet(0.3)
    link.confirmed(unsolicited(3, events[3]))
    centre.takes(BINARY_OFF)


# ---- control centres that cut, flood or don't read


def reads_nothing(scene: Scene, centre: Centre, began: float, least: int, most: int) -> None:
    """A control centre that started then reads nothing: t1 closes it, behind so many I formats, and frees its place."""
    closed = scene.closed(centre, "closed: t1 expired")
    within("the close", closed - began, DEAF_SECONDS, DEAF_SECONDS + TICK + LOOK)
    with suppress(Ended):
        while True:
            centre.asdu()
    if not least <= centre.got <= most:
        raise Difference(f"I formats before the close: wanted {least} to {most}, got {centre.got}")
    centre.connection.close()
    time.sleep(LOOK)
    same("the place", scene.started().place, centre.place)


@case
def deaf_client(scene: Scene) -> None:
    """a control centre that never reads is closed by t1"""
    scene.start(sessions=3, witness=True, t1_ms=DEAF_MS, t2_ms=500)
    centre, began = scene.client(), time.time()
    centre.start()
    centre.ask(general(ACTIVATION))
    reads_nothing(scene, centre, began, 12, 12)


@case
def deaf_client_with_window(scene: Scene) -> None:
    """a control centre that never reads is closed by t1, though the gateway waits in a write"""
    outstation = scene.outstation()
    scene.start(sessions=3, witness=True, t1_ms=DEAF_MS, t2_ms=500, k=32767, queue=65536)
    link, centre, began = scene.accept(outstation), scene.client(room=2048), time.time()
    link.send(response(0))
    centre.start()
    news = count_up(link, 50)
    reads_nothing(scene, centre, began, 13, len(news) - 1)
    scene.witness.takes(*news)


@case
def flooding_client(scene: Scene) -> None:
    """a control centre that asks for confirmations and never reads them"""
    scene.bend()
    scene.start(sessions=2, witness=True)
    centre = scene.client(**DEAF)
    with suppress(OSError):
        centre.write(bytes.fromhex(TEST) * 50_000)
    scene.closed(centre, "closed: more than 32 answers would wait")
    centre.connection.close()


@case
def cut_client(scene: Scene) -> None:
    """control centres that close, or reset, within an APDU"""
    scene.start(sessions=5, witness=True)
    interrogation = i_format(0, 0, general(ACTIVATION))
    for octets in (b"\x68", interrogation[:9], bytes.fromhex(START) + interrogation[:15]):
        centre = scene.client()
        centre.write(octets)
        scene.leave(centre)
    centre = scene.client()
    centre.write(interrogation[:9])
    centre.reset()
    scene.closed(centre, "lost: reset by peer")


@case
def hundred_clients(scene: Scene) -> None:
    """100 connections that are closed at once, each of which is counted, and few are told of"""
    scene.passed_over += rf"|{TAKEN}(, and \d+ more)?|{FREE}|client \d {HOST}:\d+ lost again: .+"
    scene.start(sessions=102, witness=True, status=True)
    began, centres = time.monotonic(), []
    for _ in range(100):
        centres.append(Centre(scene.port))
        centres[-1].connection.close()
    within("100 connections", time.monotonic() - began, 0, 1 - SLACK)
    end = time.monotonic() + PATIENCE
    while (counts := scene.closes())["lost"] < 100 and time.monotonic() < end:
        time.sleep(LOOK)
    same("closes", counts, dict(t1=0, sequence=0, not_started=0, malformed=0, flooded=0, lost=100))
    # The first ones have eight places, and each of these is told of while none has ended.
    with scene.noted:
        few, scene.notes = scene.notes, []
    if not 0 < len(few) <= 8 or not all(f" {HOST}:" in text for text, _ in few):
        raise Difference(f"lines on standard error: wanted eight of {HOST} at most, got {few}")
    scene.started()


@alone
def reconnects(scene: Scene) -> None:
    """connections by the thousand leave nothing behind"""
    scene.passed_over += rf"|client \d {HOST}:\d+ (connected|lost: .+|lost again: .+)"
    scene.start(sessions=RECONNECTS + 1)
    for number in range(RECONNECTS):
        centre = Centre(scene.port)
        centre.start()
        if number == FIRST_RECONNECTS:
            memory, others = resources(scene.process.pid)
        if number == RECONNECTS - 1:
            memory_now, others_now = resources(scene.process.pid)
        centre.leave()
    scene.client()
    same("threads, open files and children", others_now, others)
    print(f"serve: {RECONNECTS} connections leave {memory_now - memory} kB more")
    if not Scene.is_checked and memory_now - memory > GROWTH_KB:
        raise Difference(f"memory: wanted at most {GROWTH_KB} kB more, got {memory_now - memory} kB")


# ---- who may connect


@case
def allowed_clients(scene: Scene) -> None:
    """who isn't allowed to connect is let go at once, told of once, and counts as no session"""
    ways = [([HOST], HOST, [OTHER_HOST, "127.1.0.1"]), ([f"{OTHER_HOST}/31", "10.0.0.0/8"], "127.0.0.3", [HOST])]
    for allowed, served, others in ways:
        scene.start(sessions=1, options=[word for it in allowed for word in ("--allow", it)])
        for host in others * 2:
            began = time.monotonic()
            same_octets("the octets for who isn't allowed", Centre(scene.port, host=host).rest(), b"")
            within("the end for who isn't allowed", time.monotonic() - began, 0, 0)
        for host in others:
            scene.told(f"{host} isn't allowed to connect")
        scene.client(host=served).start()
        scene.finish()
    scene.process = None


# ---- places


@case
def nine_clients(scene: Scene) -> None:
    """the ninth control centre waits for a place"""
    scene.start(sessions=9, witness=True)
    centres = [scene.started() for _ in range(7)]
    scene.told(TAKEN)
    same("the places", sorted(it.place for it in [scene.witness.centre, *centres]), [*"01234567"])
    ninth = Centre(scene.port)
    ninth.send(START)
    ninth.quiet(0.3)
    scene.leave(centres[2])
    scene.told(FREE)
    scene.seated(ninth)
    scene.told(TAKEN)
    same("the place of the ninth", ninth.place, centres[2].place)
    ninth.wants(START_CON)


# Behind how many seconds of silence a control centre is tested, and how much longer it may take to answer until it may have to
# give way: which is also how long one that has connected, or stopped data transfer, keeps its place.
T3, GRACE = 1.0, 1.0
T3_MS, DEAD = int(T3 * 1000), T3 + GRACE


class Standby:
    """A control centre that confirms each test, until it is told not to."""

    def __init__(self, centre: Centre) -> None:
        self.centre, self.is_dead, self.is_there, self.came = centre, False, True, 0
        centre.connection.settimeout(None)
        threading.Thread(target=self.work, daemon=True).start()

    def work(self) -> None:
        with suppress(Difference, OSError):
            while True:
                apdu = spelled(self.centre.apdu())
                if apdu == TEST and not self.is_dead:
                    self.centre.send(TEST_CON)
                self.came += 1
        self.is_there = False


def standby(scene: Scene, host: str) -> Standby:
    return Standby(scene.client(host=host))


def newcomer(scene: Scene, host: str) -> Centre:
    """A control centre connects that wants to start data transfer, and may have to wait."""
    centre = Centre(scene.port, host=host)
    centre.send(START)
    return centre


def served(scene: Scene, centre: Centre) -> None:
    """A control centre that has waited is served."""
    scene.seated(centre)
    centre.wants(START_CON)


def calm(scene: Scene) -> None:
    """So much later that what was told before makes no difference."""
    scene.clock.set(max(scene.clock.shown) + 2 * MINUTE)


@case
def standbys_of_two_addresses(scene: Scene) -> None:
    """where control centres of two addresses have all places and confirm each test, a newcomer waits; a dead one of its own
    address gives way to it, and none of the other one's"""
    scene.bend(WALL)
    scene.start(t3_ms=T3_MS)
    standbys = [standby(scene, host) for host in (HOST, OTHER_HOST) * 4]
    scene.told(TAKEN)
    waiting = newcomer(scene, OTHER_HOST)
    waiting.quiet(DEAD + 3 * T3)
    # One of the other address falls silent, which changes nothing; then the second one of its own does.
    standbys[0].is_dead = True
    waiting.quiet(DEAD + T3)
    scene.tells_nothing(0)
    calm(scene)
    standbys[3].is_dead = True
    began = time.monotonic()
    scene.closed(standbys[3].centre, GAVE_WAY)
    within("the way given", time.monotonic() - began, DEAD - T3 - TICK, DEAD + TICK + LOOK)
    scene.told(FREE)
    served(scene, waiting)
    scene.told(TAKEN)
    # The next newcomer finds one that owes an answer for long.
    standbys[5].is_dead = True
    time.sleep(DEAD + TICK)
    scene.tells_nothing(0)
    calm(scene)
    began, later = time.monotonic(), newcomer(scene, OTHER_HOST)
    scene.closed(standbys[5].centre, GAVE_WAY)
    within("the way given at once", time.monotonic() - began, 0, TICK + LOOK - SLACK / 2)
    scene.told(FREE)
    served(scene, later)
    scene.told(TAKEN)
    # One that waits at the end goes with the others.
    last = newcomer(scene, OTHER_HOST)
    last.quiet(LOOK)
    scene.finish()
    with suppress(ConnectionResetError):
        same_octets("the octets for one that waited to the end", last.rest(), b"")
    scene.process = None


@case
def standby_clients(scene: Scene) -> None:
    """where all places are taken, of the control centres of the newcomer's address from which nothing comes the one that
    connected first gives way, and is counted"""
    scene.bend(WALL)
    scene.start(witness=True, status=True, t3_ms=T3_MS)
    scene.started()
    living, silent = standby(scene, HOST), [scene.client(host=HOST) for _ in range(5)]
    scene.told(TAKEN)
    time.sleep(DEAD + TICK)
    for _ in range(3):
        calm(scene)
        began, centre, oldest = time.monotonic(), newcomer(scene, HOST), silent.pop(0)
        scene.closed(oldest, GAVE_WAY)
        within("the way given", time.monotonic() - began, 0, LOOK)
        same_octets("the octets of the one that gives way", oldest.rest(), bytes.fromhex(TEST))
        scene.told(FREE)
        served(scene, centre)
        scene.told(TAKEN)
    same("whether the one that answers is still there", living.is_there, True)
    same("closes", scene.closes(), dict(t1=0, sequence=0, not_started=0, malformed=0, flooded=0, lost=3))


@case
def stopped_standby(scene: Scene) -> None:
    """a control centre that has just stopped data transfer doesn't give way, though it connected first and owes an answer"""
    scene.bend(WALL)
    scene.start(t3_ms=T3_MS)
    stopped = scene.client(host=HOST)
    stopped.start()
    silent = scene.client(host=HOST)
    for _ in range(6):
        standby(scene, next(HOSTS))
    scene.told(TAKEN)
    time.sleep(DEAD + TICK)
    stopped.send(STOP)
    for wanted in (TEST, STOP_CON):
        stopped.wants(wanted)
    began, first = time.monotonic(), newcomer(scene, HOST)
    scene.closed(silent, GAVE_WAY)
    scene.told(FREE)
    served(scene, first)
    scene.told(TAKEN)
    # It keeps its place for a second.
    calm(scene)
    second = newcomer(scene, HOST)
    scene.closed(stopped, GAVE_WAY)
    within("the way given", time.monotonic() - began, GRACE - LOOK, GRACE + TICK + LOOK)
    scene.told(FREE)
    served(scene, second)
    scene.told(TAKEN)


@case
def started_clients(scene: Scene) -> None:
    """control centres that have started don't give way, though nothing comes from them, until t1 closes them; one that starts
    just before it would have to, doesn't either"""
    scene.passed_over += f"|{TAKEN}|{FREE}"
    scene.start(t3_ms=T3_MS, t1_ms=5000, t2_ms=500)
    scene.passed_over += rf"|client \d {HOST}:\d+ .+"
    centres = [newcomer(scene, HOST) for _ in range(7)]
    late, began = Centre(scene.port), time.monotonic()
    time.sleep(DEAD + TICK)
    late.wants(TEST)
    late.start()
    Standby(late)
    waiting = newcomer(scene, HOST)
    waiting.quiet(T3)
    for centre in centres:
        same_octets("the octets of one that is closed", centre.rest(), bytes.fromhex(START_CON + TEST))
        within("the close", time.monotonic() - began, T3 + 5 - TICK, T3 + 5 + 2 * TICK + LOOK)
    waiting.wants(START_CON)


@case
def clients_that_wait(scene: Scene) -> None:
    """one to which another gives way is served before those that wait longer; more than may wait at once are all served, in
    their order, as places become free, and those that have gone meanwhile keep nobody"""
    scene.passed_over += rf"|{TAKEN}(, and \d+ more)?|{FREE}"
    scene.start(sessions=8 + 15, t3_ms=T3_MS)
    silent, seated = scene.client(host=HOST), [standby(scene, next(HOSTS)).centre for _ in range(7)]
    waiting, first = [newcomer(scene, next(HOSTS))], newcomer(scene, HOST)
    scene.closed(silent, GAVE_WAY)
    served(scene, first)
    waiting[0].quiet(LOOK)
    waiting += [newcomer(scene, next(HOSTS)) for _ in range(13)]
    gone = waiting[2:5]
    for centre in gone:
        centre.connection.close()
    waiting[-1].quiet(LOOK)
    for leaving, centre in zip([first, *seated], waiting[:2] + waiting[5:11]):
        scene.leave(leaving)
        served(scene, centre)
        same("the place", centre.place, leaving.place)
    for centre in gone:
        scene.seated(centre)
        scene.closed(centre, "lost: end of input", "lost: reset by peer", "lost: broken pipe")
    for leaving, centre in zip((waiting[0], waiting[1], waiting[5]), waiting[11:]):
        scene.leave(leaving)
        served(scene, centre)
