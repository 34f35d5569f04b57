"""Cases of `checks/serve`: what is told of peers whose connections end again and again."""
import re
import socket
import threading
import time
from contextlib import suppress

from framing import i_format
from harness import HOSTS, HOUR, LOOK, LOOKS, MINUTE, OTHER_HOST, PAUSE, SECOND, TICK, WALL, Scene, case
from peers import (
    ACTIVATION, HOST, PATIENCE, START, STOP, STOP_CON, Centre, Difference, Outstation, general, response, same,
)

# How many lines a peer whose connections end again and again has within a minute at most.
LINES = 6
# The time of day at WALL.
WALL_MINUTE = "22:13"


def tells(scene: Scene, *wanted: str) -> None:
    """These are the lines that are told, in this order."""
    with scene.noted:
        scene.noted.wait_for(lambda: len(scene.notes) >= len(wanted), PATIENCE)
        got, scene.notes = [text for text, _ in scene.notes], []
    same("lines on standard error", got, list(wanted))


def comes_and_goes(outstation: Outstation) -> None:
    """An outstation takes a connection, and ends it."""
    outstation.accept().leave()


@case
def restless_outstation(scene: Scene) -> None:
    """an outstation that takes connections and ends them is told of twice, then once a minute for an hour, then once an hour;
    behind a calm time all is told that wasn't, and what stands"""
    scene.bend(WALL)
    # It is calm where no connection has ended for eight hours and half a minute.
    outstation = scene.outstation(poll_ms=4 * HOUR)
    scene.start(status=True)
    name = outstation.name

    def again(count: int, since: str = WALL_MINUTE) -> str:
        return f"{name} lost again: end of input ({count} times since {since})"

    comes_and_goes(outstation)
    tells(scene, f"{name} connected", f"{name} lost: end of input")
    comes_and_goes(outstation)
    tells(scene, f"{name} connected", again(2))
    for _ in range(3):
        comes_and_goes(outstation)
    for later, count in ((MINUTE, 5), (2 * MINUTE, 6)):
        scene.clock.set(WALL + later - 1)
        scene.tells_nothing(LOOKS)
        scene.clock.set(WALL + later)
        tells(scene, again(count))
        comes_and_goes(outstation)
    # An hour has passed since the first one.
    for later, count in ((HOUR, 7), (2 * HOUR, 8)):
        scene.clock.set(WALL + 2 * MINUTE + later - 1)
        scene.tells_nothing(LOOKS)
        scene.clock.set(WALL + 2 * MINUTE + later)
        tells(scene, again(count))
        comes_and_goes(outstation)
    # One stands, of which it is told behind a calm time, and not before.
    link = scene.accept(outstation, is_told=False)
    link.send(response(0, iin=0x80))
    scene.tells_nothing(LOOKS)
    scene.has_figures(outstation.labels, outstation_connected=1)
    scene.clock.set(WALL + 2 * MINUTE + 10 * HOUR + MINUTE)
    tells(scene, again(9), f"{name} connected", f"{name} restarted (IIN1.7)")
    scene.links.pop(outstation).leave()
    tells(scene, f"{name} lost: end of input")
    comes_and_goes(outstation)
    tells(scene, f"{name} connected", again(2, "08:16"))


@case
def restless_outstations(scene: Scene) -> None:
    """of 32 outstations at once that take connections and end them four lines are told each; then one each a minute later"""
    scene.bend(WALL)
    outstations, ending = [scene.outstation() for _ in range(32)], threading.Event()
    scene.passed_over += r"|outstation \d+ \S+ not connected: connection refused"
    scene.start()
    counts = dict.fromkeys(outstations, 0)

    def work(outstation: Outstation) -> None:
        outstation.listener.settimeout(0.1)
        while not ending.is_set():
            with suppress(OSError):
                comes_and_goes(outstation)
                counts[outstation] += 1

    threads = [threading.Thread(target=work, args=[it], daemon=True) for it in outstations]
    for thread in threads:
        thread.start()
    for outstation in outstations:
        for words in ("connected", "lost: end of input", "connected", f"lost again: end of input (2 times since {WALL_MINUTE})"):
            scene.told(f"{outstation.name} {words}")
    scene.tells_nothing(2 * PAUSE)
    ending.set()
    for thread in threads:
        thread.join()
    for outstation in outstations:
        outstation.listener.close()
    time.sleep(LOOK)
    scene.clock.set(WALL + MINUTE)
    # One that wasn't accepted any more may be among them.
    for outstation, count in counts.items():
        same("more than two connections", count > 2, True)
        scene.told(*(f"{outstation.name} lost again: {it} (# times since {WALL_MINUTE})" for it in (
            "end of input", "reset by peer")))


def bound(place: tuple[str, int]) -> socket.socket:
    """A socket at a place, which others may have too."""
    listener = socket.socket()
    listener.setsockopt(socket.SOL_SOCKET, socket.SO_REUSEPORT, 1)
    listener.bind(place)
    listener.settimeout(PATIENCE)
    return listener


@case
def refusing_outstation(scene: Scene) -> None:
    """an outstation that takes connections and refuses them by turns is told of as such a few times"""
    scene.bend(WALL)
    outstation = scene.outstation(listens=False)
    outstation.listener.close()
    outstation.listener = bound((HOST, 0))
    outstation.place = "{}:{}".format(*outstation.listener.getsockname())
    scene.start()
    scene.told(f"{outstation.name} not connected: connection refused")
    for _ in range(4):
        outstation.listener.listen()
        comes_and_goes(outstation)
        following = bound(outstation.listener.getsockname())
        outstation.listener.close()
        outstation.listener = following
        time.sleep(PAUSE + TICK)
    tells(scene, *(f"{outstation.name} {it}" for it in (
        "connected", "lost: end of input", "not connected: connection refused",
        "connected", f"lost again: end of input (2 times since {WALL_MINUTE})")))
    scene.clock.set(WALL + MINUTE)
    scene.told(f"{outstation.name} lost again: end of input (4 times since {WALL_MINUTE})")
    scene.told(f"{outstation.name} not connected: connection refused")


# What control centres send, and how their connections end by it.
WAYS = [
    (b"\x00", "lost: no APDUs came: a start octet other than 0x68"),
    (b"\x68\x03", "lost: no APDUs came: a length outside 4 to 253"),
    (i_format(0, 0, general(ACTIVATION)), "closed: an I format before STARTDT"),
    (bytes.fromhex(START) + i_format(1, 0, general(ACTIVATION)), "closed: a wrong sequence number"),
]


def visit(scene: Scene, octets: bytes, host: str = HOST) -> None:
    """A control centre connects, and its connection ends by what it sends, which is counted."""
    before, centre = sum(scene.closes().values()), Centre(scene.port, host=host)
    centre.write(octets)
    with suppress(ConnectionResetError):
        centre.rest()
    centre.connection.close()
    end = time.monotonic() + PATIENCE
    while sum(scene.closes().values()) == before and time.monotonic() < end:
        time.sleep(0.01)
    # It is told, where it is, right behind that.
    time.sleep(0.01)


def counted_in(text: str) -> int:
    """Of how many connections that ended a line tells, where each told is one."""
    match = re.fullmatch(r"client \d \S+ (?:lost|closed): .*?(?:, and (\d+) more)?", text)
    return 1 + int(match[1] or 0) if match else 0


def few_of(scene: Scene, most: int) -> list[str]:
    """The lines that were told, of which there are so many at most."""
    time.sleep(LOOKS)
    with scene.noted:
        got, scene.notes = [text for text, _ in scene.notes], []
    if len(got) > most:
        raise Difference(f"lines on standard error: wanted {most} at most, got {got}")
    return got


@case
def restless_clients(scene: Scene) -> None:
    """of control centres of one address whose connections end for one reason after the other six lines are told a minute; each
    is counted, there and on the status"""
    scene.bend(WALL)
    scene.start(status=True)
    visits = 0
    for minute in range(3):
        scene.clock.set(WALL + minute * MINUTE)
        for _ in range(20):
            visit(scene, WAYS[visits % len(WAYS)][0])
            visits += 1
        lines = few_of(scene, LINES)
        ends = [it for it in lines if not it.endswith(" connected")]
        if minute == 0:
            same("what is told at once", [it.split(" ", 3)[3] for it in lines],
                 ["connected", WAYS[0][1], "connected", WAYS[1][1], WAYS[2][1], WAYS[3][1]])
            told = 4
        else:
            told += sum(counted_in(it) for it in ends)
    # Another address is told of as ever.
    visit(scene, WAYS[0][0], OTHER_HOST)
    for words in ("connected", WAYS[0][1]):
        scene.told(f"client # {OTHER_HOST}:# {words}")
    scene.clock.set(WALL + 3 * MINUTE)
    told += sum(counted_in(it) for it in few_of(scene, 1))
    same("connections that were told to have ended", told, visits)
    same("closes", sum(scene.closes().values()), visits + 1)
    # Behind a calm time the address is told of at once again.
    scene.clock.set(WALL + 6 * MINUTE)
    scene.tells_nothing(LOOKS)
    scene.leave(scene.client(host=HOST))


@case
def restless_clients_under_a_bad_clock(scene: Scene) -> None:
    """six lines are told of an address whose connections end, though the clock goes back each time, or stands"""
    scene.bend(WALL)
    scene.start(status=True)
    for number in range(20):
        scene.clock.set(WALL - number * SECOND)
        visit(scene, WAYS[number % 4][0])
    few_of(scene, LINES)
    for _ in range(10):
        visit(scene, WAYS[0][0])
    scene.tells_nothing(LOOKS)
    # A minute later the rest is told.
    scene.clock.set(WALL + MINUTE)
    lines = few_of(scene, 1)
    same("the ends that are told in it", [re.sub(r":\d+ ", ":# ", it.split(" ", 2)[2]) for it in lines],
         [f"{HOST}:# lost again: no APDUs came: a start octet other than 0x68 (10 times since {WALL_MINUTE}), and 16 more"])


@case
def restless_clients_of_many_addresses(scene: Scene) -> None:
    """of control centres of ever more addresses whose connections end few are told, once there are more than 32"""
    scene.bend(WALL)
    scene.start(status=True)
    for _ in range(60):
        visit(scene, WAYS[0][0], next(HOSTS))
    lines = few_of(scene, 2 * 32 + LINES)
    same("lines of the first 32", len(lines) >= 2 * 32, True)
    scene.clock.set(WALL + MINUTE)
    told = sum(counted_in(it) for it in lines + few_of(scene, 1))
    same("connections that were told to have ended", told, 60)
    same("closes", sum(scene.closes().values()), 60)


@case
def standing_client(scene: Scene) -> None:
    """a connection that stands is told of behind a calm time, though others of its address ended before, with its data
    transfer"""
    scene.bend(WALL)
    scene.passed_over = r"nothing"
    scene.start(status=True, t1_ms=15000, t3_ms=20000)
    for words in (WAYS[0][1], f"lost again: {WAYS[0][1].removeprefix('lost: ')} (2 times since {WALL_MINUTE})"):
        visit(scene, WAYS[0][0])
        scene.told(f"client # {HOST}:# connected")
        scene.told(f"client # {HOST}:# {words}")
    centre = Centre(scene.port)
    centre.start()
    scene.clock.set(WALL + 70 * SECOND - 1)
    scene.tells_nothing(LOOKS)
    scene.clock.set(WALL + 70 * SECOND)
    scene.seated(centre)
    scene.told(f"{centre.name} data transfer started")
    centre.send(STOP)
    centre.wants(STOP_CON)
    scene.told(f"{centre.name} data transfer stopped")
    scene.leave(centre)
