"""Cases of `checks/serve`: what the status shows, as a page and as figures, and what it answers to requests."""
import hashlib
import html
import re
import shutil
import socket
import tempfile
import time
from contextlib import suppress
from pathlib import Path

from framing import i_format
from harness import (
    BINARY_ON, CONTROLS, DOUBLE, EARLY, LOOK, OBJECTS, OFF_COMMAND, OFF_GIVEN, OFF_REQUEST, OFF_WORDS, OTHER_HOST,
    SLACK, SWITCH, TROUBLES, VERSION, Scene, answered, becomes, case, inputs, within,
)
from peers import (
    ACTIVATION, CONFIRMATION, DIRECT_OPERATE, EVENTS, INTEGRITY, NEGATIVE, PATIENCE, STOP, STOP_CON, TERMINATION,
    Centre, Difference, Link, Outstation, asdu, general, latch, response, same, unsolicited,
)

# How long a request for the status may take.
ASKING = 2.0


# ---- requests to the status

HTML, PLAIN, FIGURES = (f"text/{it}; charset=utf-8" for it in ("html", "plain", "plain; version=0.0.4"))
PAGE, METRICS = ("200 OK", HTML, "<!DOCTYPE html>\n<html lang=en>\n"), ("200 OK", FIGURES, "# HELP gateway_info ")
ALIVE, HEALTH = ("200 OK", PLAIN, "alive\n"), ("200 OK", PLAIN, "ok\n")
MALFORMED, NOT_FOUND = "400 Bad Request", "404 Not Found"
NOT_ALLOWED, TOO_LONG = "405 Method Not Allowed", "431 Request Header Fields Too Large"
REQUESTS = [
    ("GET / HTTP/1.1\r\nHost: a\r\n\r\n", PAGE),
    ("GET /?a=/metrics HTTP/1.0\n\n", PAGE),
    ("HEAD / HTTP/1.1\r\n\r\n", PAGE),
    ("GET /metrics HTTP/1.1\r\nContent-Length: 9\r\n\r\nbody", METRICS),
    ("\r\nHEAD /metrics? HTTP/1.1\r\n\r\n", METRICS),
    ("GET /alive HTTP/1.1\r\n\r\n", ALIVE),
    ("HEAD /alive?a HTTP/1.0\r\n\r\n", ALIVE),
    ("GET http://a/health HTTP/1.1\r\n\r\n", HEALTH),
    ("HEAD /health HTTP/1.1\r\n\r\n", HEALTH),
    ("GET /alive/ HTTP/1.1\r\n\r\n", NOT_FOUND),
    ("GET /Health HTTP/1.1\r\n\r\n", NOT_FOUND),
    ("POST /health HTTP/1.1\r\n\r\n", NOT_ALLOWED),
    # Targets in absolute form.
    ("GET http://a/ HTTP/1.1\r\n\r\n", PAGE),
    ("GET http://a:80/metrics?b=/ HTTP/1.1\r\n\r\n", METRICS),
    ("HEAD http://a?b=/metrics HTTP/1.1\r\n\r\n", PAGE),
    ("GET http://a//metrics HTTP/1.1\r\n\r\n", NOT_FOUND),
    ("GET /http://a/metrics HTTP/1.1\r\n\r\n", NOT_FOUND),
    ("GET /metrics/ HTTP/1.1\r\n\r\n", NOT_FOUND),
    ("HEAD /page HTTP/1.1\r\n\r\n", NOT_FOUND),
    ("POST /favicon.ico HTTP/1.1\r\n\r\n", NOT_FOUND),
    ("POST / HTTP/1.1\r\n\r\n", NOT_ALLOWED),
    ("get /metrics HTTP/1.1\r\n\r\n", NOT_ALLOWED),
    ("GET / HTTP/2.0\r\n\r\n", MALFORMED),
    ("\x16\x03\x01", MALFORMED),
    ("GET /\r\n\r\n", MALFORMED),
    ("GET / HTTP/1.1\r\na b\r\n\r\n", MALFORMED),
    ("garbage\r\n\r\n", MALFORMED),
    ("", None),
    ("GET / HTTP/1.1\r\n", None),
    # As many fields as there may be, and one more; as many octets, and one more.
    ("GET / HTTP/1.1\r\n" + "a:\r\n" * 64 + "\r\n", PAGE),
    ("GET / HTTP/1.1\r\n" + "a:\r\n" * 65 + "\r\n", TOO_LONG),
    (f"GET /?{'a' * 4077} HTTP/1.1\r\n\r\n", PAGE),
    (f"GET /?{'a' * 4078} HTTP/1.1\r\n\r\n", TOO_LONG),
    (f"GET / HTTP/1.1\r\nA: {'b' * 5000}\r\n\r\n", TOO_LONG),
]
# Those that come octet by octet.
SLOW_REQUESTS = [
    ("GET /metrics HTTP/1.1\r\n\r\n", METRICS),
    ("GET /metrics HTTP/1.1\r\n\r", None),
    ("GET\t/ HTTP/1.1\r\n\r\n", MALFORMED),
]


def answer_to(scene: Scene, request: str, apart: float | None = None) -> str:
    """What a request is answered behind which nothing more comes: all octets."""
    line, octets = scene.asking(), b""
    with suppress(OSError):
        line.write(request.encode(), apart)
        line.connection.shutdown(socket.SHUT_WR)
    with suppress(ConnectionResetError):
        while piece := line.connection.recv(65536):
            octets += piece
    line.connection.close()
    return octets.decode()


def judge_answer(request: str, got: str, wanted: tuple[str, str, str] | str | None) -> None:
    """A request is answered with what is wanted: nothing, a refusal, or what is there."""
    is_head, what = request.lstrip().startswith("HEAD "), f"the answer to {request[:50]!r}"
    if not wanted:
        same(what, got, "")
        return
    line, content, begins = wanted if isinstance(wanted, tuple) else (wanted, PLAIN, f"{wanted}\n")
    head, _, body = got.partition("\r\n\r\n")
    length = re.search(r"\r\nContent-Length: (\d+)", head)
    fields = [f"Content-Type: {content}", f"Content-Length: {length[1] if length else 'N'}", "Cache-Control: no-store",
              *(["Allow: GET, HEAD"] if line == NOT_ALLOWED else []), "Connection: close"]
    same(f"the head of {what}", head.split("\r\n"), [f"HTTP/1.1 {line}", *fields])
    size = int(length[1])
    if content == PLAIN:
        same(f"the length of {what}", size, len(begins))
    same(f"the body of {what}", (body[: len(begins)], len(body.encode())), ("", 0) if is_head else (begins, size))


@case
def requests_to_the_status(scene: Scene) -> None:
    """what each of some requests to the status is answered: a page, figures, a refusal or nothing"""
    scene.start(status=True)
    for apart, requests in ((None, REQUESTS), (0.005, SLOW_REQUESTS)):
        for request, wanted in requests:
            judge_answer(request, answer_to(scene, request, apart), wanted)


@case
def status_patience(scene: Scene) -> None:
    """a slow request is given up, and doesn't keep the next, nor do 200 of them keep anybody"""
    scene.start(witness=True, status=True)
    began, slow, next_one = time.monotonic(), scene.asking(), scene.asking(b"GET / HTTP/1.1\r\n\r\n")
    with suppress(OSError):
        slow.write(b"GET / HTTP/1.1\r\n" + b"A" * 60, apart=0.05)
    within("the end of a slow request", time.monotonic() - began, ASKING, ASKING + LOOK)
    slow.connection.close()
    same("the code of the next", answered(next_one)[0], 200)
    began = time.monotonic()
    for _ in range(200):
        same("the code of one of many", answered(scene.asking(b"GET /metrics HTTP/1.1\r\n\r\n"))[0], 200)
    within("200 requests", time.monotonic() - began, 0, 12 if scene.is_checked else 4)


@case
def status_trickle(scene: Scene) -> None:
    """an answer that is read little by little is given up, and doesn't keep the next"""
    for number in range(6):
        scene.outstation(listens=False).place = f"{number}{'a' * 200}"
    scene.passed_over += r"|the address of outstation .*|outstation .* not connected: .*"
    scene.start(status=True)
    request, began = b"GET /metrics HTTP/1.1\r\n\r\n", time.monotonic()
    whole = len(answered(scene.asking(request))[2])
    alone = time.monotonic() - began
    began, slow = time.monotonic(), scene.asking(request, room=2048)
    slow.connection.recv(2048)
    same("the code of the next", answered(scene.asking(request))[0], 200)
    within("the next answer", time.monotonic() - began, 0, ASKING - SLACK - LOOK + 2 * alone)
    octets = 0
    while time.monotonic() - began < ASKING + 2 * LOOK:
        octets += len(slow.connection.recv(2048))
        time.sleep(LOOK)
    with suppress(OSError):
        octets += len(slow.rest())
    slow.connection.close()
    if octets >= whole:
        raise Difference(f"the octets of the slow answer: wanted fewer than {whole}, got {octets}")


# ---- the whole status

# When it is asked for; when the gateway started, an outstation was connected, two control centres were, and the
# outstation answered last.
NOW = 1_700_000_000_000
STARTED, CONNECTED, CAME, ANSWERED = NOW - 90_061_500, NOW - 12_000_000, NOW - 3_725_000, NOW - 12_345
# Where an outstation is said to be reached, and how lines, figures and the page show that.
ODD = "a\"b\\c\n<&'>\t"
ODD_LINE, ODD_LABEL, ODD_HTML = "a\"b\\c\\n<&'>\\t", "a\\\"b\\\\c\\n<&'>\\\\t", "a&quot;b\\c\\n&lt;&amp;&#39;&gt;\\t"
# Each family of figures, in order, with its type and its words.
FAMILIES = """\
gateway_info gauge The version of the gateway, and which it is.
gateway_start_time_seconds gauge Unix time at which the gateway started.
gateway_uptime_seconds gauge Time since the gateway started.
gateway_steps_total counter Steps of the core.
gateway_news_total counter Spontaneous observations.
gateway_refused_connections_total counter Connections that weren't allowed.
gateway_left_out_lines_total counter Lines of the log that were left out.
process_resident_memory_bytes gauge Resident memory of the gateway.
process_cpu_seconds_total counter Processor time that the gateway took.
gateway_outstation_connected gauge Whether a connection to the outstation stands.
gateway_outstation_connection_start_time_seconds gauge Unix time since which the connection stands.
gateway_outstation_answered gauge Whether the outstation has answered since it connected.
gateway_outstation_last_answer_time_seconds gauge Unix time of the last answer.
gateway_outstation_requests_total counter Requests sent to the outstation.
gateway_outstation_unanswered_requests_total counter Requests not answered in time.
gateway_outstation_refused_fragments_total counter Fragments of the outstation that were refused.
gateway_outstation_skipped_bytes_total counter Octets of the outstation that the link skipped.
gateway_outstation_passed_over_objects_total counter Objects of the outstation of kinds that aren't taken.
gateway_outstation_events_total counter Events that the outstation reported.
gateway_outstation_clock_not_set gauge Whether the outstation isn't polled since its clock can't be set.
gateway_outstation_points gauge Points of the outstation.
gateway_outstation_not_topical_points gauge Points whose last value isn't topical.
gateway_outstation_never_told_points gauge Points that no response had, though all were asked for.
gateway_outstation_indication gauge Whether the last response had this internal indication.
gateway_outstation_orders_total counter Commands accepted as orders for the outstation.
gateway_outstation_done_orders_total counter Orders that the outstation did.
gateway_outstation_failed_orders_total counter Orders that failed.
gateway_outstation_let_go_orders_total counter Orders whose client's session ended before they were given.
gateway_outstation_waiting_orders gauge Orders that wait for the outstation, or for its answer.
gateway_outstation_order_outcomes_total counter Orders for the outstation that ended, by how they did.
gateway_client_connected gauge Whether a client is connected at this place.
gateway_client_connection_start_time_seconds gauge Unix time since which the connection stands.
gateway_client_data_transfer gauge Whether data transfer is started.
gateway_client_unacknowledged_apdus gauge I formats sent and not acknowledged.
gateway_client_queued_observations gauge Observations that wait.
gateway_client_dropped_observations_total counter Observations dropped since too many waited.
gateway_client_info gauge Who is connected at this place.
gateway_client_closes_total counter Connections of this place that ended, by cause.
gateway_client_refused_commands_total counter Commands for controls from this place that were refused, by cause.
"""
INDICATIONS = (
    "ALL_STATIONS CLASS_1 CLASS_2 CLASS_3 NEED_TIME LOCAL_CONTROL TROUBLE RESTART NO_FUNCTION OBJECT_UNKNOWN "
    "PARAMETER_ERROR OVERFLOW ALREADY_EXECUTING CONFIGURATION_CORRUPT").split()
CLOSES = "t1 sequence not_started malformed flooded lost".split()
REFUSALS = (
    "no_state qualifier out_of_range outstation_down selected_by_another not_selected unlike_select no_place").split()
# The figures of the outstation with trouble, and of the one that was never reached.
OF_OUTSTATIONS = {
    "outstation_connected": (1, 0),
    "outstation_connection_start_time_seconds": ("1699988000.000",),
    "outstation_answered": (1, 0),
    "outstation_last_answer_time_seconds": ("1699999987.655",),
    "outstation_requests_total": (11, 0),
    "outstation_unanswered_requests_total": (1, 0),
    "outstation_refused_fragments_total": (2, 0),
    "outstation_skipped_bytes_total": (3, 0),
    "outstation_passed_over_objects_total": (0, 0),
    "outstation_events_total": (29, 0),
    "outstation_clock_not_set": (0, 0),
    "outstation_points": (3, 0),
    "outstation_not_topical_points": (2, 0),
    "outstation_never_told_points": (2, 0),
    "outstation_orders_total": (10, 0),
    "outstation_done_orders_total": (5, 0),
    "outstation_failed_orders_total": (2, 0),
    "outstation_let_go_orders_total": (1, 0),
    "outstation_waiting_orders": (2, 0),
}
# The figures of each place for a client.
OF_CLIENTS = {
    "client_connected": (1, 1, 0, 0, 0, 0, 0, 0),
    "client_connection_start_time_seconds": ("1699996275.000", "1699996275.000"),
    "client_data_transfer": (1, 0, 0, 0, 0, 0, 0, 0),
    "client_unacknowledged_apdus": (8, 0, 0, 0, 0, 0, 0, 0),
    "client_queued_observations": (17, 0, 0, 0, 0, 0, 0, 0),
    "client_dropped_observations_total": (4, 0, 0, 0, 0, 0, 0, 0),
}


def metrics_of(outstation: Outstation, centres: list[Centre]) -> str:
    """All figures, as text, but for the steps of the core."""
    labels = [outstation.labels, f'outstation="1",place="{ODD_LABEL}",target="{ODD_LABEL}"']
    clients = [f'client="{place}"' for place in range(8)]
    figures = dict(
        info=[(f'version="{VERSION}"', 1)], start_time_seconds=f"{STARTED // 1000}.500", uptime_seconds="90061.500",
        steps_total="#", news_total=29, refused_connections_total=0,
        left_out_lines_total=[(f'kind="{kind}"', 0) for kind in ("control", "other")])
    figures |= dict.fromkeys(("process_resident_memory_bytes", "process_cpu_seconds_total"), "#")
    figures |= {name: list(zip(labels, values)) for name, values in OF_OUTSTATIONS.items()}
    figures["outstation_indication"] = [
        (f'{labels[0]},indication="{name}"', int(name in ("CLASS_1", "NEED_TIME", "RESTART", "OVERFLOW")))
        for name in INDICATIONS]
    figures["outstation_order_outcomes_total"] = [
        (f'{labels[position]},outcome="{outcome}"', count) for position, counts in enumerate(((5, 2, 1), (0, 0, 0)))
        for outcome, count in zip(("done", "failed", "let_go"), counts)]
    figures |= {name: list(zip(clients, values)) for name, values in OF_CLIENTS.items()}
    figures["client_info"] = [(f'{clients[n]},address="{it.address}"', 1) for n, it in enumerate(centres)]
    closes = {(0, "not_started"): 2, (0, "lost"): 1}
    figures["client_closes_total"] = [
        (f'{clients[place]},cause="{cause}"', closes.get((place, cause), 0)) for place in range(8) for cause in CLOSES]
    figures["client_refused_commands_total"] = [
        (f'{clients[place]},cause="{cause}"', 0) for place in range(8) for cause in REFUSALS]
    text = ""
    for name, kind, words in (it.split(" ", 2) for it in FAMILIES.splitlines()):
        text += f"# HELP {name} {words}\n# TYPE {name} {kind}\n"
        values = figures[name.removeprefix("gateway_")]
        lines = [(f"{{{labels}}}", value) for labels, value in values] if isinstance(values, list) else [("", values)]
        text += "".join(f"{name}{labels} {value}\n" for labels, value in lines)
    return text


# The page: its head without its style, how all is, and the tables of the outstations and of the clients.
PAGE_HEAD = """\
<!DOCTYPE html>
<html lang=en>
<head>
<meta charset=utf-8>
<meta name=viewport content="width=device-width, initial-scale=1">
<meta http-equiv=refresh content=2>
<link rel=icon href="data:,">
<title>Not all is well - gateway</title>
<style>
..</style>
</head>
"""
PAGE_BODY = """\
<body>
<h1 class=wrong>Not all is well<span>0 of 2 outstations all right, 2 of 8 clients connected, 1 in data transfer</span></h1>
<ul>
<li class=wrong>client 0 {first}: 4 observations dropped in the last minute</li>
<li class=wrong>outstation 0 {place}: trouble it tells itself: OVERFLOW, since 2023-11-14T22:13:07Z</li>
<li class=wrong>outstation 1 {odd}: not connected: no address of a host and a port, since 2023-11-13T21:12:18Z</li>
</ul>
<ul>
<li class=caution>outstation 0 {place}: asks for the time, and isn't given it, since lan_time isn't set</li>
<li class=caution>outstation 0 {place}: 2 of 3 points never told</li>
</ul>
<p>At 2023-11-14T22:13:20Z. The gateway runs for 1 d 1 h, since 2023-11-13T21:12:18Z.</p>
<p>Settings {file}, SHA-256 {digest}. Listens on 127.0.0.1:{port}. Version {version}.</p>
<p># steps of the core, 29 spontaneous observations.</p>
<h2>Outstations</h2>
<table>
<thead><tr><th>Outstation</th><th>State</th><th>Last answer</th><th>Indications</th><th>Points</th>\
<th class=number>Events</th><th class=number>Requests</th><th>Not taken</th><th>Orders</th></tr></thead>
<tbody>
<tr><th scope=row><i>0</i> {place} <small>link address 1</small> <small>common address 1</small></th>\
<td class=wrong data-column=State>trouble it tells itself: OVERFLOW <small>for 12 s</small> \
<small>since 2023-11-14T22:13:07Z</small></td>\
<td data-column="Last answer">12 s ago <small>2023-11-14T22:13:07Z</small></td>\
<td class=caution data-column=Indications>CLASS_1, NEED_TIME, RESTART, OVERFLOW <small>0x0892</small></td>\
<td class=caution data-column=Points>3 <small>2 not topical</small> <small>2 never told</small></td>\
<td class=number data-column="Events">29</td>\
<td class=number data-column=Requests>11 <small>1 unanswered</small></td>\
<td data-column="Not taken">2 fragments refused, 3 octets skipped</td>\
<td data-column=Orders>5 done, 2 failed, 1 let go, 2 waiting</td></tr>
<tr><th scope=row><i>1</i> {odd} <small>link address 2</small> <small>common address 1</small></th>\
<td class=wrong data-column=State>not connected: no address of a host and a port <small>for 1 d 1 h</small> \
<small>since 2023-11-13T21:12:18Z</small></td><td data-column="Last answer">never</td>\
<td data-column=Indications>none</td><td data-column=Points>0</td><td class=number data-column="Events">0</td>\
<td class=number data-column=Requests>0</td><td data-column="Not taken">none</td><td data-column=Orders>none</td></tr>
</tbody>
</table>
<h2>Clients</h2>
<table>
<thead><tr><th>Client</th><th>State</th><th>Connected</th><th class=number>Not acknowledged</th>\
<th class=number>Queued</th><th class=number>Dropped</th><th>Ended</th></tr></thead>
<tbody>
<tr><th scope=row><i>0</i> {first}</th>\
<td class=wrong data-column=State>reads too slowly: 4 dropped in the last minute \
<small>data transfer for 1 h 2 min</small></td>\
<td data-column=Connected>for 1 h 2 min <small>since 2023-11-14T21:11:15Z</small></td>\
<td class=number data-column="Not acknowledged">8</td><td class=number data-column="Queued">17</td>\
<td class=number data-column="Dropped">4</td><td data-column=Ended>2 not_started, 1 lost</td></tr>
<tr><th scope=row><i>1</i> {second}</th><td data-column=State>connected only</td>\
<td data-column=Connected>for 1 h 2 min <small>since 2023-11-14T21:11:15Z</small></td>\
<td class=number data-column="Not acknowledged">0</td><td class=number data-column="Queued">0</td>\
<td class=number data-column="Dropped">0</td><td data-column=Ended>none</td></tr>
{free}</tbody>
</table>
</body>
</html>
"""
FREE_ROW = """\
<tr class=free><th scope=row><i>{}</i></th><td data-column=State>free</td><td data-column=Connected>no</td>\
<td class=number data-column="Not acknowledged">0</td><td class=number data-column="Queued">0</td>\
<td class=number data-column="Dropped">0</td><td data-column=Ended>none</td></tr>
"""


def page_of(scene: Scene, outstation: Outstation, centres: list[Centre]) -> str:
    """The page, but for its style and the steps of the core."""
    free = "".join(FREE_ROW.format(place) for place in range(2, 8))
    first, second = (it.address for it in centres)
    digest = hashlib.sha256(Path(scene.file.name).read_bytes()).hexdigest()
    return PAGE_HEAD + PAGE_BODY.format(
        version=VERSION, file=scene.file.name, digest=digest, port=scene.port, place=outstation.place, odd=ODD_HTML,
        first=first, second=second, free=free)


def shown_at(scene: Scene, path: str) -> str:
    """What the status shows at a path, without the number of steps and what the process takes."""
    body = answered(scene.asking(f"GET {path} HTTP/1.1\r\n\r\n".encode()))[2]
    varies = r"((?:gateway_steps_total|process_\w+) )[\d.]+$|\d+( steps of the core)"
    return re.sub(varies, r"\1#\2", body, flags=re.MULTILINE)


def same_lines(what: str, got: str, wanted: str) -> None:
    """Two texts are the same, line by line."""
    for got_line, wanted_line in zip(got.splitlines(), wanted.splitlines()):
        same(what, got_line, wanted_line)
    same(what, got, wanted)


def ended_before(scene: Scene) -> None:
    """Three connections of control centres at place 0 end, two of them by an I format before STARTDT."""
    for _ in range(2):
        centre = scene.client()
        centre.write(i_format(0, 0, general(ACTIVATION)))
        scene.closed(centre, "closed: an I format before STARTDT")
        centre.connection.close()
        time.sleep(LOOK)
    scene.leave(scene.client())
    time.sleep(LOOK)


def operated(link: Link, centre: Centre) -> None:
    """Seven orders end: five are done, by the fifth of which no session is told, and two fail; one more is let go."""
    for number, status in zip(range(3, 9), (0, 0, 0, 0, 4, 4)):
        centre.ask(OFF_COMMAND)
        link.operated(number, DIRECT_OPERATE, latch(6, False), latch(6, False, status=status))
        answers = (CONFIRMATION | NEGATIVE,) if status else (CONFIRMATION, TERMINATION)
        centre.takes(*(asdu(46, it, DOUBLE, "01") for it in answers))
    centre.ask(OFF_COMMAND)
    link.request(9, OFF_REQUEST)
    centre.ask(OFF_COMMAND)
    centre.send(STOP)
    centre.wants(STOP_CON)
    link.send(response(9, latch(6, False)))
    centre.start()


def troubled(link: Link, centre: Centre) -> None:
    """Octets are skipped, two fragments are refused, and of 29 events, with trouble at the end, 17 wait."""
    link.write(bytes(3))
    for _ in range(2):
        link.send(bytes.fromhex("C0 01 00 00"))
    for number in range(8):
        link.confirmed(unsolicited(number, inputs(1)))
        centre.takes(BINARY_ON)
    link.confirmed(bytes.fromhex("F8 82 92 08") + inputs(21))


@case
def whole_status(scene: Scene) -> None:
    """the whole of the figures and of the page, with an outstation that has trouble and one that was never reached"""
    scene.bend(STARTED)
    scene.passed_over += r"|.* (asks|told): .*|.* order \d+ .*"
    outstation = scene.outstation(listens=False, response_ms=3000)
    scene.outstation(listens=False, place=ODD)
    scene.start(status=True, controls=CONTROLS, k=8, w=8, queue=17)
    scene.told(f"the address of outstation 1, {ODD_LINE}, has no port")
    scene.told(f"{outstation.name} not connected: connection refused")
    scene.told(f"outstation 1 {ODD_LINE} not connected: no address of a host and a port")
    # That is told again behind hours; and what the outstation's loss brings at the end finds no room.
    scene.passed_over += r"|outstation 1 .* not connected: .*|.* 1 observation dropped, since too many waited"
    ended_before(scene)
    scene.clock.set(CONNECTED)
    outstation.listener.listen()
    link = scene.accept(outstation)
    scene.clock.set(CAME)
    centres = [scene.started(), scene.client()]
    # The first request has no answer; the second one has, and events wait behind it.
    link.request(1, INTEGRITY)
    link.send(response(1, iin=0x02))
    link.request(2, EVENTS)
    link.send(response(2))
    operated(link, centres[0])
    centres[0].ask(OFF_COMMAND)
    link.request(10, OFF_REQUEST)
    centres[0].ask(OFF_COMMAND)
    scene.has_figures(outstation.labels, outstation_waiting_orders=2)
    scene.clock.set(ANSWERED)
    troubled(link, centres[0])
    scene.has_figures(outstation.labels, outstation_events_total=29)
    scene.clock.set(NOW)
    same_lines("the figures", shown_at(scene, "/metrics"), metrics_of(outstation, centres))
    page = re.sub("<style>\n.*</style>", "<style>\n..</style>", shown_at(scene, "/"), flags=re.DOTALL)
    same_lines("the page", page, page_of(scene, outstation, centres))
    for what in TROUBLES[:2]:
        scene.told(f"{outstation.name} {what}")
    for _ in range(2):
        scene.told(f"{outstation.name} unreadable: function 1, which is no response")
    scene.told(f"{centres[0].name} 4 observations dropped, since too many waited")


# ---- parts of the page

# For how many seconds the gateway runs, and how the page tells that.
SPANS = {
    0: "0 s", 59: "59 s", 60: "1 min 0 s", 200: "3 min 20 s", 3599: "59 min 59 s", 3600: "1 h 0 min",
    86_399: "23 h 59 min", 86_400: "1 d 0 h", 90_061: "1 d 1 h",
}


@case
def page_of_a_gateway_that_is_well(scene: Scene) -> None:
    """the page tells that all is well where it is, and for how long the gateway runs"""
    scene.bend(NOW)
    outstation = scene.outstation()
    scene.start(status=True)
    link, _ = scene.accept(outstation), scene.started()
    link.send(response(0, OBJECTS, iin=0x20))
    scene.has_figures(f'{outstation.labels},indication="LOCAL_CONTROL"', outstation_indication=1)
    wanted = "All is well<span>1 of 1 outstations all right, 1 of 8 clients connected, 1 in data transfer</span>"
    for seconds, words in SPANS.items():
        scene.clock.set(NOW + seconds * 1000)
        page = shown_at(scene, "/")
        same("how all is", re.findall("<h1 class=right>(.*)</h1>", page), [wanted])
        same("the title of the page", re.findall("<title>(.*)</title>", page), ["All is well - gateway"])
        runs = re.findall(r"The gateway runs for (.*), since (.*)\.</p>", page)
        same("for how long the gateway runs", runs, [(words, "2023-11-14T22:13:20Z")])


NAMES = "name,outstation,kind,index,address\n<Bay> \\1,0,outstation,,\nQ0,0,control,6,5003\nQ0 closed,0,binary,5,4101\n"
BAY = "  <Bay> \\1"


@case
def names_of_a_list(scene: Scene) -> None:
    """the names of a list, behind what is told of an outstation and of a control, on the page, and in the figures"""
    scene.passed_over += f"|outstation 0 .* not connected: .*{re.escape(BAY)}"
    outstation = scene.outstation()
    scene.start(status=True, controls=CONTROLS, options=scene.named(NAMES))
    link = scene.accept(outstation, is_told=False)
    scene.told(f"{outstation.name} connected{BAY}")
    link.send(response(0))
    centre = scene.started()
    centre.ask(OFF_COMMAND)
    words = f"{OFF_WORDS}, originator 0, station 1"
    scene.told(f"{centre.name} asks: {words}: order 1  Q0")
    link.operated(1, DIRECT_OPERATE, latch(6, False))
    scene.told(f"{outstation.name} order 1 given: {OFF_GIVEN}{BAY}")
    scene.told(f"{outstation.name} order 1 done{BAY}")
    for cause, what in ((CONFIRMATION, "confirmed"), (TERMINATION, "terminated")):
        centre.takes(asdu(46, cause, DOUBLE, "01"))
        scene.told(f"{centre.name} told: {words}: {what}  Q0")
    # A control that has no name.
    scene.asks(centre, asdu(45, ACTIVATION, SWITCH, "80"), "single command 5001 off, QU 0, select")
    scene.answers(centre, "single command 5001 off, QU 0, select", (asdu(45, CONFIRMATION, SWITCH, "80"), "confirmed"))
    scene.has_figures(f'{outstation.labels},name="<Bay> \\\\1"', outstation_orders_total=1)
    page = shown_at(scene, "/")
    wanted = f"&lt;Bay&gt; \\1 <small>{outstation.place}</small>"
    same("the outstation on the page", re.findall("<i>0</i> (.*?) <small>link address", page), [wanted])
    outstation.listener.close()
    link.connection.close()
    scene.lost(outstation, f"lost: end of input{BAY}")


# The indications that tell of trouble.
OF_TROUBLE = "TROUBLE NO_FUNCTION OBJECT_UNKNOWN PARAMETER_ERROR OVERFLOW CONFIGURATION_CORRUPT".split()


@case
def indications_in_the_status(scene: Scene) -> None:
    """each internal indication alone, by its name, on the page and in the figures, and whether it tells of trouble"""
    scene.passed_over += "|.* restarted .*|.* its event buffer overflowed .*"
    outstation = scene.outstation()
    scene.start(status=True)
    # While a request isn't answered no other one is sent, whatever is indicated.
    link = scene.accept(outstation)
    for bit, name in enumerate([*INDICATIONS, "RESERVED", "RESERVED"]):
        link.confirmed(bytes([0xF0 | bit, 0x82]) + (1 << bit).to_bytes(2, "little"))
        labels = [f'gateway_outstation_indication{{{outstation.labels},indication="{it}"}}' for it in INDICATIONS]
        figures = scene.figures()
        same(f"figures of bit {bit}", [figures.get(it) for it in labels], [it == name for it in INDICATIONS])
        page, is_wanted = shown_at(scene, "/"), " class=caution" if name == "NEED_TIME" else ""
        same(f"the page of bit {bit}", re.findall(f"<td{is_wanted} data-column=Indications>(.*?)</td>", page),
             [f"{name} <small>0x{1 << bit:04X}</small>"])
        state = f" class=wrong data-column=State>trouble it tells itself: {name}" if name in OF_TROUBLE else \
            " data-column=State>connected, all right"
        same(f"the state of bit {bit}", re.findall("<td( [^<]*State>[^<]*?) <small>for", page), [state])
        verdict = "Not all is well" if name in OF_TROUBLE else "Caution" if is_wanted else "All is well"
        same(f"how all is with bit {bit}", re.findall("<title>(.*) - gateway</title>", page), [verdict])


@case
def head_of_the_page(scene: Scene) -> None:
    """the page and the figures tell the name of the site, escaped, and the commit that a file beside the program has; none of both
    where they aren't known"""
    site, commit = "Nord <110 kV> & \"S\u00fcd\"\n", "0123456789abcdef0123456789abcdef01234567"
    with tempfile.TemporaryDirectory() as folder:
        program = Path(shutil.copy(scene.words[0], Path(folder, "gateway")))
        for has_both in (False, True):
            if has_both:
                Path(folder, "COMMIT").write_text(f"{commit}\n")
                scene.process.stdin.close()
                scene.told("stopped")
                scene.process.wait(PATIENCE)
            scene.words = [str(program)]
            scene.start(status=True, options=["--site", site] if has_both else [])
            page = shown_at(scene, "/")
            title = f"All is well - {html.escape(site[:-1]).replace('&#x27;', '&#39;')}\\n - gateway" if has_both else \
                "All is well - gateway"
            same("the title", re.findall("<title>(.*?)</title>", page), [title])
            same("the commit", re.findall(r" \(commit (.*?)\)", page), [commit] if has_both else [])
            info = [it for it in scene.figures() if it.startswith("gateway_info")]
            same("the labels of the version", len(re.findall(',(commit|site)="', info[0])), 2 if has_both else 0)


# ---- figures


@case
def figures(scene: Scene) -> None:
    """the status has the figures of what came and went"""
    outstation = scene.outstation(response_ms=1000)
    scene.start(status=True, k=1, w=1, queue=3, t1_ms=3000, t2_ms=500)
    link, centre = scene.accept(outstation), scene.started()
    link.request(1, INTEGRITY)
    link.send(b"\xC0\x01\0\0")
    scene.told(f"{outstation.name} unreadable: function 1, which is no response")
    link.write(bytes(5))
    link.confirmed(response(1, bytes.fromhex("02 01 17 07" + "05 81" * 7), con=True, iin=0x20))
    centre.takes(BINARY_ON, BINARY_ON, BINARY_ON)
    scene.told(f"{centre.name} 4 observations dropped, since too many waited")
    link.confirmed(b"\xF0\x82\x20\0" + bytes.fromhex("02 01 17 01 05 01"))
    scene.has_figures(
        outstation.labels, outstation_connected=1, outstation_requests_total=2, outstation_unanswered_requests_total=1,
        outstation_refused_fragments_total=1, outstation_skipped_bytes_total=5, outstation_events_total=8,
    )
    for indication, is_set in (("LOCAL_CONTROL", 1), ("TROUBLE", 0), ("RESTART", 0)):
        scene.has_figures(f'{outstation.labels},indication="{indication}"', outstation_indication=is_set)
    scene.has_figures(
        'client="0"', client_connected=1, client_data_transfer=1, client_unacknowledged_apdus=1,
        client_queued_observations=1, client_dropped_observations_total=4,
    )
    scene.has_figures(f'client="0",address="{centre.address}"', client_info=1)
    figures = scene.figures()
    same("the news", figures["gateway_news_total"], 8)
    moments = [value for name, value in figures.items() if "_time_seconds" in name]
    same("whether they are of now", [scene.began - EARLY < it < time.time() for it in moments], [True] * 4)
    scene.closed(centre, "closed: t1 expired")
    scene.has_figures('client="0",cause="t1"', client_closes_total=1)
    scene.has_figures(
        'client="0"', client_connected=0, client_connection_start_time_seconds=None, client_data_transfer=0,
        client_dropped_observations_total=4,
    )
    scene.has_figures(f'client="0",address="{centre.address}"', client_info=None)


@case
def further_figures(scene: Scene) -> None:
    """the figures of what was refused and passed over: commands by their cause, connections that aren't allowed, and objects; and
    of what the process takes"""
    scene.passed_over += r"|.* (asks|told): .*|.* isn't allowed .*|.* passed over, .*"
    outstation = scene.outstation()
    scene.start(status=True, controls=CONTROLS, options=["--allow", "127.128.0.0/9"])
    link = scene.accept(outstation)
    link.send(response(0, OBJECTS))
    centre = scene.started()
    for kind, address, element in ((46, DOUBLE, "03"), (45, SWITCH, "01"), (45, SWITCH, "01")):
        centre.ask(asdu(kind, ACTIVATION, address, element))
        centre.takes(asdu(kind, CONFIRMATION | NEGATIVE, address, element))
    labels = f'client="{centre.place}",cause='
    for cause, count in (("no_state", 1), ("not_selected", 2), ("qualifier", 0)):
        scene.has_figures(f'{labels}"{cause}"', client_refused_commands_total=count)
    for _ in range(3):
        same("the octets for who isn't allowed", Centre(scene.port, host=OTHER_HOST).rest(), b"")
    becomes("connections that weren't allowed", lambda: scene.figures()["gateway_refused_connections_total"], 3)
    # Two analog outputs, which are none of the kinds that are taken.
    link.confirmed(unsolicited(0, bytes.fromhex("28 02 00 00 01 01 0A 00 01 0B 00")))
    scene.has_figures(outstation.labels, outstation_passed_over_objects_total=2)
    figures = scene.figures()
    same("the memory", 1_000_000 < figures["process_resident_memory_bytes"] < 1_000_000_000, True)
    same("the processor", 0 <= figures["process_cpu_seconds_total"] < 100, True)
    same("the lines left out", [figures[f'gateway_left_out_lines_total{{kind="{it}"}}'] for it in ("control", "other")], [0, 0])
    began = figures["gateway_start_time_seconds"]
    same("when it started", abs(began - scene.began) < PATIENCE, True)
