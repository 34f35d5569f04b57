"""Cases of `checks/serve`: whether the status says that all is well, and what it says of each outstation and client;
`/alive`, and `/health`."""
import html
import re
import socket
import tempfile
import threading
import time
from collections.abc import Iterator, Sequence
from contextlib import contextmanager, suppress
from pathlib import Path

from harness import BINARY_ON, LOOK, MINUTE, OBJECTS, ON, TROUBLES, WALL, Scene, answered, becomes, case, inputs
from peers import EVENTS, HOST, INTEGRITY, PATIENCE, STOP, STOP_CON, Difference, Outstation, response, same, unsolicited

# How long an outstation may take to answer, in milliseconds, and in how many seconds it is found to be late.
RESPONSE_MS, LATE = 800, 1.5
# In how many seconds /alive has to answer, whatever peers do.
ALIVE_LIMIT = 0.5
# For how many seconds it is asked while they stall.
STALLING = 6.0
# A row of the table of outstations, and of that of clients: what the first cell has besides, the class of the state, the state,
# and the rest.
ROW = re.compile(r"<tr( class=free)?><th scope=row><i>(\d+)</i>(.*?)</th><td( class=\w+)? data-column=State>(.*?)</td>(.*)")
# 2023-11-14T22:13:20Z, at which the clock stands in some cases.
AT = "2023-11-14T22:13:20Z"


def asked(scene: Scene, path: str) -> tuple[int, str]:
    """The code and the body of the answer to a request for a path."""
    code, _, body = answered(scene.asking(f"GET {path} HTTP/1.1\r\n\r\n".encode()))
    return code, body


def tables(scene: Scene) -> list[list[tuple[int, str, str, str, str]]]:
    """The rows of the outstations and those of the clients, each as its number, its place, the class of its state, the state as
    text and the rest."""
    page = asked(scene, "/")[1]
    rows = [[ROW.fullmatch(it) for it in part.splitlines() if it.startswith("<tr") and "<th scope" in it]
            for part in page.split("<h2>")[1:]]
    return [[(int(it[2]), it[3].strip(), (it[4] or "").strip(), it[5], it[6]) for it in part] for part in rows]


def state_of(scene: Scene, table: int, number: int) -> tuple[str, str]:
    """The class and the words of the state of an outstation (0) or a client (1), without since when."""
    _, _, kind, state, _ = tables(scene)[table][number]
    return kind, html.unescape(re.sub(r" <small>.*?</small>", "", state))


def is_so(scene: Scene, outstation: Outstation, words: str, is_right: bool = False) -> None:
    """The page says so of an outstation, and marks it, unless it is right."""
    wanted = ("" if is_right else "class=wrong", words)
    becomes(f"the state of {outstation.name}", lambda: state_of(scene, 0, outstation.number), wanted)


def is_client_so(scene: Scene, place: int | str, words: str, is_wrong: bool = False) -> None:
    wanted = ("class=wrong" if is_wrong else "", words)
    becomes(f"the state of the client at place {place}", lambda: state_of(scene, 1, int(place)), wanted)


def is_well(scene: Scene, lines: Sequence[str] = ()) -> None:
    """The health is `ok`, and the page has these cautions alone."""
    becomes("the health", lambda: asked(scene, "/health"), (200, "ok\n"))
    listed(scene, "Caution" if lines else "All is well", [("caution", it) for it in lines])


def is_wrong(scene: Scene, *lines: str, cautions: Sequence[str] = ()) -> None:
    """The health tells of the first of these lines, and the page lists all."""
    more = f", and {len(lines) - 1} more" if len(lines) > 1 else ""
    becomes("the health", lambda: asked(scene, "/health"), (503, f"{lines[0]}{more}\n"))
    listed(scene, "Not all is well", [("wrong", it) for it in lines] + [("caution", it) for it in cautions])


def listed(scene: Scene, verdict: str, lines: list[tuple[str, str]]) -> None:
    """The page's title has this verdict, and at its top these lines stand, in any order, each with its class."""
    page = asked(scene, "/")[1]
    same("how all is", re.findall("<title>(.*?) - ", page), [verdict])
    same("whether the page says well", "All is well" in page, verdict == "All is well")
    same("what isn't well", sorted((kind, html.unescape(text)) for kind, text in re.findall("<li class=(.*?)>(.*?)</li>", page)),
         sorted(lines))


# ---- outstations


@case
def never_connected(scene: Scene) -> None:
    """an outstation that can't be connected isn't all right: the page and the health tell why, and since when; once it answers
    all is well"""
    scene.bend(WALL)
    outstation = scene.outstation(listens=False, common_address=7)
    scene.start(status=True)
    scene.told(f"{outstation.name} not connected: connection refused")
    scene.clock.set(WALL + 5 * MINUTE)
    is_so(scene, outstation, "not connected: connection refused")
    line = f"{outstation.name}: not connected: connection refused, since {AT}"
    is_wrong(scene, line)
    _, place, _, state, rest = tables(scene)[0][0]
    same("where it is", place,
         f"{outstation.place} <small>link address 1</small> <small>common address 7</small>")
    same("since when", re.findall("<small>(.*?)</small>", state), ["for 5 min 0 s", f"since {AT}"])
    same("its last answer", re.findall('data-column="Last answer">(.*?)</td>', rest), ["never"])
    scene.has_figures(outstation.labels, outstation_connected=0, outstation_answered=0, outstation_not_topical_points=3)
    outstation.listener.listen()
    link = scene.accept(outstation)
    is_so(scene, outstation, "connected, no answer yet; the connection before ended: connection refused")
    link.send(response(0, OBJECTS))
    is_so(scene, outstation, "connected, all right", is_right=True)
    is_well(scene)
    scene.has_figures(outstation.labels, outstation_connected=1, outstation_answered=1, outstation_not_topical_points=0)


@case
def never_answering(scene: Scene) -> None:
    """an outstation that connects, is silent and is lost, again and again, is at no time all right, and the page says what it is"""
    scene.passed_over += r"|outstation .* (connected|lost.*|closed: .*)"
    outstation = scene.outstation(poll_ms=600, response_ms=300)
    seen, end = set(), time.monotonic() + 8
    threading.Thread(target=connections_of, args=[outstation, end], daemon=True).start()
    scene.start(status=True)
    while time.monotonic() < end:
        code, body = asked(scene, "/health")
        same("the code of the health", code, 503)
        state = state_of(scene, 0, 0)
        same("the class of the state", state[0], "class=wrong")
        seen.add(state[1])
        figure = scene.figures()[f"gateway_outstation_answered{{{outstation.labels}}}"]
        same("whether it has answered", figure, 0)
        time.sleep(0.05)
    lost = "silent for 1 s"
    # Before it was connected for the first time.
    seen.discard("not connected")
    same("what it was", seen, {
        "connected, no answer yet", "connected, not answering", f"not connected: {lost}",
        f"connected, no answer yet; the connection before ended: {lost}",
        f"connected, not answering; the connection before ended: {lost}"})


def connections_of(outstation: Outstation, end: float) -> None:
    """Takes connections, and answers nothing, until a moment."""
    with suppress(OSError):
        while time.monotonic() < end + PATIENCE:
            connection = outstation.listener.accept()[0]
            with suppress(OSError):
                while connection.recv(65536):
                    pass
            connection.close()


@case
def not_answering(scene: Scene) -> None:
    """an outstation whose last request has no answer isn't all right until the next answer comes"""
    outstation = scene.outstation(poll_ms=300, response_ms=RESPONSE_MS)
    scene.start(status=True)
    link = scene.accept(outstation)
    link.send(response(0, OBJECTS))
    is_well(scene)
    link.request(1, EVENTS)
    time.sleep(LATE)
    is_so(scene, outstation, "connected, not answering")
    code, body = asked(scene, "/health")
    same("the code of the health", code, 503)
    same("the health", re.sub("since .*Z", "since Z", body), f"{outstation.name}: connected, not answering, since Z\n")
    scene.has_figures(outstation.labels, outstation_connected=1, outstation_answered=1)
    # Whatever is asked next is answered.
    threading.Thread(target=link.answer_all, daemon=True).start()
    is_so(scene, outstation, "connected, all right", is_right=True)
    is_well(scene)


@case
def clock_that_stops_polls(scene: Scene) -> None:
    """an outstation that isn't polled since its clock can't be set isn't all right, while it still asks for the time"""
    scene.bend(WALL)
    scene.passed_over += rf"|outstation .* {re.escape(TROUBLES[2])}"
    outstation = scene.outstation(lan_time=True)
    scene.start(status=True)
    link = scene.accept(outstation)

    def answer(iin: int) -> None:
        """The next request is answered with an indication."""
        link.send(response(link.fragment()[0], iin=iin))

    # All that it has, and that it needs the time; it is given it, and asks again.
    link.send(response(0, OBJECTS, iin=0x10))
    is_so(scene, outstation, "connected, all right", is_right=True)
    is_well(scene)
    for _ in range(4):
        answer(0x10)
    is_so(scene, outstation, "not polled: its clock can't be set")
    is_wrong(scene, f"{outstation.name}: not polled: its clock can't be set, since {AT}")
    scene.has_figures(outstation.labels, outstation_clock_not_set=1, outstation_answered=1)
    answer(0)
    is_so(scene, outstation, "connected, all right", is_right=True)
    is_well(scene)
    scene.has_figures(outstation.labels, outstation_clock_not_set=0)


@case
def time_that_nobody_sets(scene: Scene) -> None:
    """an outstation that asks for the time, and isn't given it, is a caution, and no alarm"""
    outstation = scene.outstation()
    scene.start(status=True)
    link = scene.accept(outstation)
    link.send(response(0, OBJECTS, iin=0x10))
    is_so(scene, outstation, "connected, all right", is_right=True)
    is_well(scene, [f"{outstation.name}: asks for the time, and isn't given it, since lan_time isn't set"])
    link.confirmed(unsolicited(0, ON))
    is_well(scene)


@case
def points_never_told(scene: Scene) -> None:
    """points that the answer to a request for all hasn't are a caution, and it is counted how many aren't topical: those that were
    never told, those that the outstation says of, and all while it is lost"""
    outstation = scene.outstation()
    scene.start(status=True)

    def counts(topical: int, told: int) -> None:
        """So many of the points are topical, and so many were told."""
        scene.has_figures(
            outstation.labels, outstation_points=3, outstation_not_topical_points=3 - topical,
            outstation_never_told_points=3 - told)

    link = scene.accept(outstation)
    # Before that answer nothing is said of what wasn't told.
    counts(topical=0, told=3)
    link.send(response(0, ON))
    counts(topical=1, told=1)
    is_well(scene, [f"{outstation.name}: 2 of 3 points never told"])
    # One that isn't topical, by COMM_LOST, was told all the same; in a fragment the last report counts.
    link.confirmed(unsolicited(0, bytes.fromhex("1E 02 00 00 00 05 0A 00")))
    counts(topical=1, told=2)
    link.confirmed(unsolicited(1, bytes.fromhex("14 01 00 00 00 05 2A 00 00 00") + bytes.fromhex("14 01 00 00 00 01 2A 00 00 00")))
    counts(topical=2, told=3)
    is_well(scene)
    # What isn't taken counts for nothing: an answer to no request.
    link.send(response(9, bytes.fromhex("1E 02 00 00 00 01 0A 00")))
    time.sleep(LOOK)
    counts(topical=2, told=3)
    link.connection.close()
    scene.lost(outstation, "lost: end of input")
    counts(topical=0, told=3)
    link = scene.accept(outstation)
    link.send(response(0, OBJECTS))
    counts(topical=3, told=3)
    is_well(scene)


@case
def trouble_it_tells(scene: Scene) -> None:
    """an outstation that tells of trouble isn't all right: the page and the health tell of which, and since when"""
    scene.bend(WALL)
    scene.passed_over += "|.* its event buffer overflowed .*"
    outstation = scene.outstation()
    scene.start(status=True)
    link = scene.accept(outstation)
    link.send(response(0, OBJECTS))
    is_well(scene)
    link.confirmed(bytes.fromhex("F0 82 40 08"))
    link.request(1, INTEGRITY)
    link.send(response(1, iin=0x40, iin2=0x08))
    scene.clock.set(WALL + MINUTE)
    is_so(scene, outstation, "trouble it tells itself: TROUBLE, OVERFLOW")
    is_wrong(scene, f"{outstation.name}: trouble it tells itself: TROUBLE, OVERFLOW, since {AT}")
    link.confirmed(bytes.fromhex("F1 82 40 00"))
    is_wrong(scene, f"{outstation.name}: trouble it tells itself: TROUBLE, since {AT}")
    link.confirmed(bytes.fromhex("F2 82 A0 00"))
    is_well(scene)
    scene.told(f"{outstation.name} {TROUBLES[0]}")


@case
def many_in_trouble(scene: Scene) -> None:
    """of 32 outstations that aren't all right the page lists eight at its top and all in their table, and the health the first one"""
    outstations = [scene.outstation(listens=False) for _ in range(32)]
    scene.start(status=True)
    for outstation in outstations:
        scene.told(f"{outstation.name} not connected: connection refused")
    # Those that were told can't be connected; it is noted of each before it is told.
    page = asked(scene, "/")[1]
    lines = re.findall("<li class=wrong>(.*?)</li>", page)
    same("the lines", [it.split(":")[0] for it in lines],
         [f"outstation {n} {HOST}" for n in range(8)] + ["and 24 more of outstations below"])
    same("the rows that are wrong", [it[2] for it in tables(scene)[0]], ["class=wrong"] * 32)
    code, body = asked(scene, "/health")
    same("the health", (code, body.split(":")[0], body.rstrip("\n").split(", ")[-1]),
         (503, f"outstation 0 {HOST}", "and 31 more"))


# ---- clients


@case
def states_of_clients(scene: Scene) -> None:
    """a client is connected only, or transfers data; neither is wrong, and nobody's place has anything of who had it"""
    outstation = scene.outstation()
    scene.start(status=True, k=12, w=8)
    link = scene.accept(outstation)
    link.send(response(0, OBJECTS))
    is_client_so(scene, 0, "free")
    is_well(scene)
    centre = scene.client()
    is_client_so(scene, centre.place, "connected only")
    is_well(scene)
    centre.start()
    is_client_so(scene, centre.place, "transfers data")
    for number in range(5):
        link.confirmed(unsolicited(number, inputs(1)))
        centre.takes(BINARY_ON)
    labels = f'client="{centre.place}"'
    scene.has_figures(labels, client_data_transfer=1, client_unacknowledged_apdus=5)
    centre.send(STOP)
    centre.wants(STOP_CON)
    is_client_so(scene, centre.place, "connected only")
    scene.leave(centre)
    is_client_so(scene, centre.place, "free")
    scene.has_figures(
        labels, client_connected=0, client_data_transfer=0, client_unacknowledged_apdus=0, client_queued_observations=0,
        client_connection_start_time_seconds=None)
    same("the row of a free place", re.findall("<td[^>]*>(.*?)</td>", tables(scene)[1][int(centre.place)][4]),
         ["no", "0", "0", "0", "1 lost"])
    is_well(scene)


@case
def reads_too_slowly(scene: Scene) -> None:
    """that observations for a client were dropped in the last minute is wrong, also where the client has left; who has its place
    then isn't said to read too slowly"""
    outstation = scene.outstation()
    scene.start(status=True, k=1, w=1, queue=3)
    link = scene.accept(outstation)
    link.send(response(0, OBJECTS))
    centre = scene.started()
    link.confirmed(unsolicited(0, inputs(11)))
    is_client_so(scene, centre.place, "reads too slowly: 8 dropped in the last minute", is_wrong=True)
    is_wrong(scene, f"{centre.name}: 8 observations dropped in the last minute")
    scene.told(f"{centre.name} 8 observations dropped, since too many waited")
    scene.leave(centre)
    is_wrong(scene, f"client {centre.place}, which has left: 8 observations dropped in the last minute")
    following = scene.started()
    same("the place of the next one", following.place, centre.place)
    is_client_so(scene, following.place, "transfers data")
    is_wrong(scene, f"client {centre.place}, which has left: 8 observations dropped in the last minute")


@case
def health_that_needs_a_centre(scene: Scene) -> None:
    """with --health-needs-centre it is wrong that no control centre transfers data, also where one is connected"""
    outstation = scene.outstation()
    scene.start(status=True, options=["--health-needs-centre"])
    link = scene.accept(outstation)
    link.send(response(0, OBJECTS))
    is_wrong(scene, "no control centre transfers data")
    centre = scene.client()
    is_wrong(scene, "no control centre transfers data")
    centre.start()
    is_well(scene)
    centre.send(STOP)
    centre.wants(STOP_CON)
    is_wrong(scene, "no control centre transfers data")


# ---- the gateway as a whole


@case
def record_that_ended(scene: Scene) -> None:
    """a record that has ended is wrong, and the figures tell whether it runs"""
    with tempfile.TemporaryDirectory() as folder:
        record, outstation = Path(folder, "run"), scene.outstation()
        scene.start(status=True, options=["--record", str(record), "--record-size", "1"])
        link = scene.accept(outstation)
        link.send(response(0, OBJECTS))
        is_well(scene)
        same("whether the record runs", scene.figures()["gateway_record_running"], 1)
        # Each of these takes more than 3,500 octets of it.
        for number in range(350):
            link.confirmed(unsolicited(number, inputs(255) + inputs(255) + inputs(100)))
            if number % 10 == 0 and scene.figures()["gateway_record_running"] == 0:
                break
        scene.told("the recording ended at step #: it has 1 MB")
        same("whether the record runs", scene.figures()["gateway_record_running"], 0)
        is_wrong(scene, "the record has ended")


@contextmanager
def stalling(scene: Scene) -> Iterator[None]:
    """Peers that stall: an outstation and a control centre that read nothing, and requests to the status that don't come whole
    and whose answers aren't read."""
    deaf = socket.create_connection((HOST, scene.port))
    lines = [scene.asking(b"GET / HTTP/1.1\r\n"), scene.asking(b"GET /metrics HTTP/1.1\r\n\r\n", room=2048)]
    try:
        yield
    finally:
        deaf.close()
        for line in lines:
            line.connection.close()


@case
def alive_while_peers_stall(scene: Scene) -> None:
    """/alive is answered by 200 at once, while an outstation and a control centre read nothing, another outstation is silent, and
    requests to the status don't come whole"""
    scene.passed_over += r"|.* (lost|closed).*|client \d 127\.0\.0\.1:\d+ .*|outstation .* connected.*|.* observations dropped.*"
    silent, deaf = scene.outstation(poll_ms=600, response_ms=300), scene.outstation(room=2048)
    # The figures of these make the answer to a request long.
    for number in range(20):
        scene.outstation(listens=False, place=f"{HOST}:1")
    scene.start(status=True, k=32767, queue=65536, t1_ms=2000, t2_ms=500)
    connections = [it.listener.accept()[0] for it in (silent, deaf)]
    scene.client(room=2048).start()
    with stalling(scene):
        end, longest = time.monotonic() + STALLING, 0
        while time.monotonic() < end:
            began = time.monotonic()
            same("the life", asked(scene, "/alive"), (200, "alive\n"))
            longest = max(longest, time.monotonic() - began)
            time.sleep(0.02)
    if longest > ALIVE_LIMIT:
        raise Difference(f"the longest answer of /alive: wanted {ALIVE_LIMIT} s, got {longest:.3f} s")
    for it in [*connections, *(it.connection for it in scene.centres)]:
        it.close()
    scene.centres.clear()


@case
def no_ticks(scene: Scene) -> None:
    """/alive and /health are answered by 503 where the core made no tick for more than a second, and by 200 once it ticks again"""
    scene.bend(WALL)
    scene.is_made_to_stand = True
    scene.passed_over += r"|the host stood still for .* s"
    scene.start(status=True)
    same("the life", asked(scene, "/alive"), (200, "alive\n"))
    ahead, seen = 0, {"/alive": set(), "/health": set()}
    for _ in range(4):
        for path in seen:
            # The clock jumps ahead; its next tick comes a moment later.
            ahead += 30
            scene.clock.be_ahead(ahead)
            seen[path].add(asked(scene, path))
            time.sleep(0.7)
            wanted = (200, "alive\n" if path == "/alive" else "ok\n")
            becomes("what is said once it ticks", lambda: asked(scene, path), wanted)
    for path, answers in seen.items():
        without = {it for it in answers if it[0] != 200}
        same(f"what {path} says without ticks", without, {(503, "the core has made no tick for 30 s\n")})
