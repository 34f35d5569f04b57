"""Cases of `checks/serve`: how the gateway starts, serves and ends, what it refuses to start with, and what it takes at
rest."""
import socket
import threading
import time
from contextlib import suppress
from pathlib import Path

from framing import crc, frame, i_format
from harness import (
    BINARY, DEAF, END_LIMIT, EVENT_TAG, EVENT_TIME, EXAMPLE, OBJECTS, POINTS, ROWS, SHOWN, SLACK, TAKEN, TOTAL, Scene,
    alone, answered, case, count_up, within,
)
from peers import (
    ACTIVATION, CONFIRMATION, COUNTERS, EVENTS, HOST, NEWS, PATIENCE, START, STOP, STOP_CON, TERMINATION, Centre,
    Difference, asdu, counters, free_place, general, response, same, same_octets,
)

# The gateway at rest: how much of a processor it may take, over how many seconds; and one that checks its addresses.
IDLE_SHARE, IDLE_SECONDS, CHECKED_IDLE_SHARE = 0.01, 3, 0.04


@case
def user_path(scene: Scene) -> None:
    """the settings of the example serve an outstation and a control centre, and no priority is told without a journal"""
    scene.in_journal = False
    # The script's own octets: what is known of the CRC.
    same_octets("the CRC of 123456789", crc(b"123456789"), b"\x82\xEA")
    outstation, listen = scene.outstation(), free_place()
    text = EXAMPLE.replace("[station]", f'[station]\nlisten = "{listen}"')
    text = text.replace("[[outstation]]", f'[[outstation]]\nconnect = "{outstation.place}"')
    scene.begin(scene.write(text), sessions=1, listen=listen)
    link, centre = scene.accept(outstation), scene.started()
    link.send(response(0, OBJECTS))
    centre.takes(*SHOWN)
    centre.interrogate(*ROWS)
    centre.ask(counters(ACTIVATION))
    total = asdu(15, COUNTERS, TOTAL, "2A 00 00 00 00")
    centre.takes(counters(CONFIRMATION), total, counters(TERMINATION))
    link.request(1, EVENTS)
    link.confirmed(bytes.fromhex("E1 81 02 00 02 02 17 01 05 81") + EVENT_TIME)
    link.request(2, EVENTS)
    link.send(response(2))
    centre.takes(asdu(30, NEWS, BINARY, "01" + EVENT_TAG))
    centre.acknowledge()
    centre.send(STOP)
    centre.wants(STOP_CON)


@case
def second_start(scene: Scene) -> None:
    """the gateway starts again where it has just closed connections, also for the status"""
    listen, scene.status = free_place(), free_place()
    for _ in range(2):
        if scene.process:
            scene.finish()
        scene.start(sessions=1, listen=listen, options=["--status", scene.status])
        same("the code of the status", answered(scene.asking(b"GET / HTTP/1.1\r\n\r\n"))[0], 200)
        centre = scene.client()
        centre.write(i_format(0, 0, general(ACTIVATION)))
        scene.closed(centre, "closed: an I format before STARTDT")
        same_octets("the octets before the end", centre.rest(), b"")


# ---- refusals


def refuses_file(scene: Scene, file: str, wanted: str, why: str, *options: str) -> None:
    """The gateway refuses a file, with status 1 and a sentence on standard error."""
    scene.run(file, "--sessions", "1", *options)
    written, complaint = scene.process.communicate(timeout=PATIENCE)
    same("output, complaint, status", (written, complaint, scene.process.returncode),
         (f"refused {wanted}\n", f"{'<3>' if scene.in_journal else ''}{why}\n", 1))
    scene.process = None


@case
def refusals(scene: Scene) -> None:
    """a port in use, no address to listen on, no file, a record that would overwrite the settings, and refused settings,
    which come before the sockets: each with a sentence that says why"""
    outstation = scene.outstation()
    with socket.create_server((HOST, 0)) as server:
        place = f"{HOST}:{server.getsockname()[1]}"
        listen = dict(listen=place)
        refuses_file(scene, scene.settings(listen, POINTS), "listen", f"can't listen on {place}: address in use")
        refuses_file(scene, scene.settings({}, POINTS), "status", f"can't serve the status on {place}: address in use",
                "--status", place)
        twice = [POINTS[0], POINTS[1] | dict(address=BINARY)]
        refuses_file(scene, scene.settings(listen, twice), "7 DoubleAddress point 1 address",
                f"point 1 of outstation 0 with address {BINARY}: address is {BINARY}, as in point 0 of outstation 0 with address"
                f" {BINARY}; allowed: a whole number from 1 to 16777215 that no other point or control has.")
    for listen in ("nowhere", HOST, f"{HOST}:65536"):
        refuses_file(scene, scene.settings(dict(listen=listen), POINTS), "listen",
                f"can't listen on {listen}: no address of a host and a port")
    name = scene.file.name
    refuses_file(scene, name + ".none", "file", f"can't read {name}.none: no such file")
    refuses_file(scene, scene.settings({}, POINTS), "record", f"can't write the record {name}.none/run: no such folder",
            "--record", name + ".none/run")
    before = scene.settings({}, POINTS)
    refuses_file(scene, before, "record", "the record would overwrite the settings file", "--record", before)
    with open(before, encoding="utf-8") as file:
        same("the settings file begins", file.read(9), "[station]")
    outstation.listener.settimeout(0)
    with suppress(BlockingIOError):
        outstation.listener.accept()
        raise Difference("the outstation: wanted no connection, got one")


@case
def refused_options(scene: Scene) -> None:
    """options that mean nothing"""
    file = scene.settings({}, POINTS)
    addresses = ("nonsense", f"{HOST}/33", f"{HOST}/", f"/{8}", f"{HOST}/8/8", f"{HOST}:2404", "")
    for options in [*(["--allow", it] for it in addresses), ["--allow"], ["--sessions", "0"], ["--nonsense"]]:
        scene.run(file, *options)
        written, complaint = scene.process.communicate(timeout=PATIENCE)
        same(f"output and status for {options}", (written, scene.process.returncode), ("", 2))
        same(f"the complaint about {options}", complaint.split()[0], "error:")
    scene.process = None


# ---- the end


@case
def last_session(scene: Scene) -> None:
    """behind the last session no connection is served, and the gateway waits for the others"""
    scene.start(sessions=2)
    first, second = scene.client(), scene.client()
    first.start()
    third = Centre(scene.port)
    third.send(START)
    scene.leave(first)
    third.quiet(0.3)
    second.start()
    third.connection.close()


@case
def end_of_input(scene: Scene) -> None:
    """the end of standard input ends the gateway, whatever is connected"""
    outstation, unreached = scene.outstation(), scene.outstation(listens=False)
    scene.start(witness=True)
    link, _ = scene.accept(outstation), scene.told(f"{unreached.name} not connected: connection refused")
    link.send(response(0, OBJECTS))
    scene.witness.takes(*SHOWN)
    scene.started().ask(general(ACTIVATION))
    scene.client()


@case
def end_with_deaf_client(scene: Scene) -> None:
    """the end of standard input ends the gateway, though it waits in a write to a control centre"""
    outstation = scene.outstation()
    scene.start(k=32767, queue=65536)
    link, centre = scene.accept(outstation), scene.client(room=2048)
    link.send(response(0))
    centre.start()
    count_up(link, 50)


@case
def end_with_deaf_outstation(scene: Scene) -> None:
    """the end of standard input ends the gateway, though it waits in a write to an outstation"""
    scene.bend()
    outstation = scene.outstation(**DEAF, response_ms=60000)
    scene.start()
    link = scene.accept(outstation)
    link.send(response(0))
    link.connection.settimeout(1)
    with suppress(OSError):
        while True:
            link.write(frame(b"", 0x49) * 20_000)
    began = time.time()
    scene.process.stdin.close()
    within("the end", scene.lost(outstation, "closed: the gateway ends") - began, 0, END_LIMIT - SLACK)


# ---- at rest


def processor_time(pid: int) -> float:
    """The seconds that the threads of a process have taken of processors, to the nanosecond: a tick of the system is too coarse
    for a gateway at rest."""
    return sum(int(it.read_text().split()[0]) for it in Path(f"/proc/{pid}/task").glob("*/schedstat")) / 1e9


@alone
def idle(scene: Scene) -> None:
    """a gateway at rest, with 32 outstations and eight control centres"""
    outstations = [scene.outstation(poll_ms=86_400_000) for _ in range(32)]
    scene.start(sessions=8)
    for outstation in outstations:
        link = scene.accept(outstation)
        link.send(response(0))
        threading.Thread(target=link.answer_all, daemon=True).start()
    for _ in range(8):
        scene.started()
    scene.told(TAKEN)
    time.sleep(0.5)
    before, began = processor_time(scene.process.pid), time.monotonic()
    time.sleep(IDLE_SECONDS)
    share = (processor_time(scene.process.pid) - before) / (time.monotonic() - began)
    print(f"serve: at rest the gateway takes {share:.2%} of a processor")
    most = CHECKED_IDLE_SHARE if Scene.is_checked else IDLE_SHARE
    if share >= most:
        raise Difference(f"the share of a processor: wanted below {most:.2%}, got {share:.2%}")
