"""Cases of `checks/serve`: the values of points on the status, as a page, in CSV and in JSON, and events as lines of a file
or of a pipe."""
import base64
import csv
import hashlib
import html
import io
import json
import os
import re
import select
import subprocess
import tempfile
import time
from collections.abc import Sequence
from contextlib import suppress
from pathlib import Path
from typing import Any

from harness import (
    ANALOG, BINARY, BINARY_ON, EVENT_LIMIT, EVENT_TIME, OBJECTS, ON, TOTAL, WALL, Scene, answered, case, inputs, point,
)
from peers import PATIENCE, Difference, Link, free_place, response, same, unsolicited

# A name with whatever has a meaning in HTML, in JSON, in CSV and for a spreadsheet, and that of an outstation.
NAME, BAY = "=<b id=x>&'\"y\"\n\\2;,", "<i>Bay & \"1\"</i>"
# 2023-11-14T22:13:20Z, the time of an event, and how texts tell it and the time of day at which the clock stands.
STAMP, STAMP_TEXT, WALL_TEXT = 1_700_000_000_000, "2023-11-14T22:13:20.000Z", "2023-11-14T22:13:20.250Z"
# An event of binary input 5: off, at that time.
EVENT = bytes.fromhex("02 02 17 01 05 01") + EVENT_TIME
# How many events of counter 0 a fragment of 2,048 octets has at most.
MANY = 150
COLUMNS = "time,stamp,clock,outstation,outstation_name,common_address,address,name,type,value,quality,cause"
MEGABYTE = 1_000_000
HINDERED, RESUMED = "events aren't written: nobody reads the pipe", "events are written again"
LEFT_OUT = r"\d+ observations? left out of the events"
# How long an answer may take while others are taken slowly, in seconds.
PROMPT = 1.0
# Within how long an event comes to whoever writes it, in seconds.
LOOKING = 0.5
# How long a program that checks its addresses may take to write a megabyte of events.
WRITING = 25.0
OFF_EVENT, ON_EVENT = bytes.fromhex("02 01 17 01 05 01"), bytes.fromhex("02 01 17 01 05 81")


# ---- values


def asked(scene: Scene, path: str) -> tuple[int, dict[str, str], str]:
    """The code, the fields and the body of the answer to a request for a path."""
    return answered(scene.asking(f"GET {path} HTTP/1.1\r\n\r\n".encode()))


def told(scene: Scene, query: str = "") -> dict[str, Any]:
    """What `/points.json` has; names may have any character but those that it has to escape."""
    code, fields, body = asked(scene, f"/points.json{query}")
    same("the code of /points.json", (code, fields["Content-Type"]), (200, "application/json"))
    if set(body) & set("<>&"):
        raise Difference(f"/points.json has what HTML may take for its own: {body[:300]!r}")
    return json.loads(body)


def values(scene: Scene, query: str = "") -> dict[int, tuple[object, str, int]]:
    """The value, the quality and how often it changed of each point, by its address."""
    return {it["address"]: (it["value"], it["quality"], it["changes"]) for it in told(scene, query)["points"]}


def shows(scene: Scene, wanted: dict[int, tuple[object, str, int]]) -> None:
    """The values become what is wanted; the gateway is looked at some fifty times a second."""
    got, end = None, time.monotonic() + EVENT_LIMIT
    while got != wanted and time.monotonic() < end:
        got = values(scene)
    same("the values of points", got, wanted)


def list_of(names: Sequence[str]) -> str:
    """A list with a name of outstation 0 and of its binary input 5."""
    text = io.StringIO()
    writer = csv.writer(text)
    writer.writerow(["name", "outstation", "kind", "index", "address"])
    writer.writerow([names[0], 0, "outstation", "", ""])
    writer.writerow([names[1], 0, "binary", 5, BINARY])
    return text.getvalue()


def watched(scene: Scene, *options: str, names: Sequence[str] = (), **station: object) -> Link:
    """Starts the gateway with values on its status, and gives its outstation's connection, on which nothing came yet."""
    outstation = scene.outstation()
    more = scene.named(list_of(names)) if names else []
    scene.start(status=True, options=["--values", *options, *more], **station)
    return scene.accept(outstation, is_told=not names)


OPENING = {BINARY: ("off", "IV NT", 0), ANALOG: (0, "IV NT", 0), TOTAL: (0, "IV", 0)}


@case
def values_of_points(scene: Scene) -> None:
    """the values of points in JSON: before anything came, as they change, since a moment, and as an outstation is lost"""
    scene.bend(WALL)
    link = watched(scene)
    shows(scene, OPENING)
    link.send(response(0, OBJECTS))
    shows(scene, {BINARY: ("on", "", 1), ANALOG: (10, "", 1), TOTAL: (42, "", 1)})
    scene.clock.set(WALL + 5000)
    link.confirmed(unsolicited(1, EVENT))
    shows(scene, {BINARY: ("off", "", 2), ANALOG: (10, "", 1), TOTAL: (42, "", 1)})
    whole = told(scene)
    same("what holds of all", (whole["started"], whole["now"], whole["passed_over"]), (WALL, WALL + 5000, 0))
    changed = {it["address"]: (it["changed"], it["stamp"], it["stamp_doubtful"]) for it in whole["points"]}
    same("when they changed", changed, {
        BINARY: (WALL + 5000, STAMP, False), ANALOG: (WALL, None, False), TOTAL: (WALL, None, False)})
    same("which point", {key: whole["points"][0][key] for key in ("outstation", "common_address", "name", "type")},
         dict(outstation=0, common_address=1, name="", type="single point"))
    for since, wanted in ((WALL, 3), (WALL + 1, 1), (WALL + 5000, 1), (WALL + 5001, 0)):
        same(f"how many changed since {since - WALL}", len(values(scene, f"?changed_since={since}")), wanted)
    # A clock that is set back hides no change from who asks for those since the last answer.
    scene.clock.set(WALL + 1000)
    link.confirmed(unsolicited(2, bytes.fromhex("02 01 17 01 05 81")))
    shows(scene, {BINARY: ("on", "", 3), ANALOG: (10, "", 1), TOTAL: (42, "", 1)})
    same("what changed since a later time", values(scene, f"?changed_since={WALL + 5000}"), {BINARY: ("on", "", 3)})
    link.connection.close()
    scene.lost(*scene.outstations, "lost: end of input")
    shows(scene, {BINARY: ("on", "NT", 4), ANALOG: (10, "NT", 2), TOTAL: (42, "IV", 2)})


@case
def types_of_values(scene: Scene) -> None:
    """each type of a value in words, with each letter of its quality"""
    outstation, options = scene.outstation(), ["--values"]
    kinds = [("binary", "single"), ("double", "double"), ("analog", "scaled"), ("counter", "total")]
    points = [point(0, kind, 5, 100 + at) | dict(show=show) for at, (kind, show) in enumerate(kinds)]
    points.append(point(0, "analog", 6, 104) | dict(show="word"))
    scene.status = free_place()
    scene.begin(scene.settings({}, points), options=[*options, "--status", scene.status])
    link = scene.accept(outstation)
    # Flags: forced (SB) and lost (NT); a double point that is indeterminate; over range; a counter that rolled over.
    link.send(response(0, bytes.fromhex(
        "01 02 00 05 05 95 03 02 00 05 05 C1 1E 01 00 05 05 21 FE FF FF FF 14 01 00 05 05 21 2A 00 00 00"
        "1E 01 00 06 06 01 2A 00 00 C0")))

    def words() -> list[tuple[str, object, str]]:
        return [(it["type"], it["value"], it["quality"]) for it in told(scene)["points"]]

    wanted = [("single point", "on", "NT SB"), ("double point", "indeterminate", ""), ("scaled value", -2, "OV"),
              ("integrated total", 42, "CY"), ("bit string", "c000002a", "")]
    end = time.monotonic() + EVENT_LIMIT
    while words() != wanted and time.monotonic() < end:
        time.sleep(0.05)
    same("values by their types", words(), wanted)


@case
def names_with_values(scene: Scene) -> None:
    """names with whatever has a meaning in HTML, JSON, CSV and a spreadsheet, and each way to ask for values"""
    scene.bend(WALL)
    scene.passed_over += r"|outstation 0 .*  .*"
    link = watched(scene, "--site", "<Mill>", names=(BAY, NAME))
    link.send(response(0, OBJECTS))
    link.confirmed(unsolicited(1, EVENT))
    shows(scene, {BINARY: ("off", "", 2), ANALOG: (10, "", 1), TOTAL: (42, "", 1)})
    same("the name in JSON", told(scene)["points"][0]["name"], NAME)
    code, fields, body = asked(scene, "/points.csv")
    same("the code of /points.csv", (code, fields["Content-Type"]), (200, "text/csv; charset=utf-8"))
    rows = list(csv.DictReader(io.StringIO(body, newline="")))
    # An apostrophe keeps a spreadsheet from taking the name for a formula.
    same("the first row in CSV", rows[0], dict(
        outstation="0", outstation_name=BAY, common_address="1", address=str(BINARY), name=f"'{NAME}", type="single point",
        value="off", quality="", changed=WALL_TEXT, stamp=STAMP_TEXT, clock="", changes="2"))
    same("the lines in CSV", (len(rows), body.count("\r\n")), (3, 4))
    same("a list since later", asked(scene, f"/points.csv?changed_since={WALL + 1}")[2].count("\n"), 1)
    page_of_values(scene)
    for path in ("/points?from=x", "/points?changed_since=1", "/points?from=-1", "/points?from=", "/points.json?from=1",
                 "/points.json?changed_since=1&b", "/points.csv?changed_since=18446744073709551616", "/points.csv?" + "a" * 2000):
        same(f"the answer to {path[:50]}", asked(scene, path)[::2], (400, "400 Query Not Known\n"))
    for path in ("/points?", "/points.json?changed_since=18446744073709551615", "/points?from=18446744073709551615"):
        same(f"the answer to {path}", asked(scene, path)[0], 200)
    same("the answer to POST", answered(scene.asking(b"POST /points HTTP/1.1\r\n\r\n"))[0], 405)
    same("the way from the status", asked(scene, "/")[2].count("<a href=points>Values of points</a>"), 1)
    scene.links.clear()


def page_of_values(scene: Scene) -> None:
    """The page has the values where no script runs, runs its own script alone, and escapes names."""
    code, fields, body = asked(scene, "/points")
    same("the code of /points", (code, fields["Content-Type"]), (200, "text/html; charset=utf-8"))
    policy = dict(it.split(" ", 1) for it in fields["Content-Security-Policy"].split("; "))
    for tag, directive in (("script", "script-src"), ("style", "style-src")):
        texts = re.findall(f"<{tag}>(.*?)</{tag}>", body, re.DOTALL)
        digests = [base64.b64encode(hashlib.sha256(it.encode()).digest()).decode() for it in texts]
        same(f"the {tag} that may run", [policy[directive]], [f"'sha256-{it}'" for it in digests])
    same("the rest of the policy", (policy["default-src"], policy["connect-src"]), ("'none'", "'self'"))
    rest = re.sub("<script>.*?</script>|<style>.*?</style>", "", body, flags=re.DOTALL)
    for text in ("<b id", "<i>", "<Mill>", "id=x"):
        same(f"{text!r} on the page", text in rest.replace("id=state", "").replace("&lt;b id=x", ""), False)
    cells = [[html.unescape(re.sub("<[^>]*>", "", cell)) for cell in re.findall("<t[hd].*?</t[hd]>", row, re.DOTALL)]
             for row in re.findall("<tr>.*?</tr>\n", rest.split("<tbody")[1], re.DOTALL)]
    shown = NAME.replace("\n", "\\n")
    same("the first row of the page", cells[0],
         [shown, f"0 {BAY}", f"1 {BINARY}", "single point", "off", "", WALL_TEXT, STAMP_TEXT, "2"])
    same("how many rows the page has", len(cells), 3)
    same("rows from the second on", asked(scene, "/points?from=1")[2].count("<tr><th scope=row>"), 2)


@case
def values_by_an_option_alone(scene: Scene) -> None:
    """values are shown by --values alone, which needs --status; --events-keep needs --events, which takes no standard output"""
    outstation = scene.outstation()
    scene.start(status=True)
    scene.accept(outstation)
    for path in ("/points", "/points.csv", "/points.json", "/points.json?a"):
        same(f"the answer to {path}", asked(scene, path)[::2], (404, "404 Not Found\n"))
    same("the way from the status", "points>" in asked(scene, "/")[2], False)
    same("figures of values", [it for it in scene.figures() if "passed_over_total" in it and "values" in it or "events_left" in it], [])

    def run(*words: str) -> subprocess.CompletedProcess[str]:
        return subprocess.run(
            [*scene.words, "run", scene.file.name, *words], capture_output=True, text=True, timeout=PATIENCE)

    wrong = [(["--values"], "--values needs --status"), (["--events-keep", "1"], "--events-keep needs --events"),
             *((["--events", it], "--events takes a file or a named pipe, not standard output")
               for it in ("-", "/dev/stdout", "/dev/fd/1", "/proc/self/fd/1")),
             (["--events", scene.file.name], "--events can't be the settings file, a list or the record")]
    before = Path(scene.file.name).read_bytes()
    for words, why in wrong:
        ended = run(*words)
        same(f"the refusal of {words}", (ended.returncode, ended.stderr), (2, f"error: {why}\n"))
    same("the settings file", Path(scene.file.name).read_bytes(), before)
    for name, why in ((os.path.dirname(scene.file.name), "it is a folder"), ("/nowhere/events.csv", "no such folder"),
                      ("/dev/null", "it is neither a file nor a named pipe")):
        ended = run("--events", name)
        same(f"the refusal of {name}", (ended.returncode, ended.stdout, ended.stderr),
             (1, "refused events\n", f"can't write the events {name}: {why}\n"))


@case
def values_passed_over(scene: Scene) -> None:
    """changes that are no longer kept when they are looked at are counted, and the values are right all the same"""
    scene.passed_over += f"|{LEFT_OUT}"
    path = events_file(scene)
    link = watched(scene, "--events", str(path), queue=2)
    shows(scene, OPENING)
    # A change of the binary input, and more events of the counter behind it, in one step, than are kept.
    rows = b"".join(bytes.fromhex("00 01") + number.to_bytes(4, "little") for number in range(1, MANY + 1))
    link.send(response(0, ON + bytes.fromhex("16 01 17") + bytes([MANY]) + rows))
    end = time.monotonic() + EVENT_LIMIT
    while told(scene)["passed_over"] != MANY - 1 and time.monotonic() < end:
        time.sleep(0.05)
    same("changes passed over", told(scene)["passed_over"], MANY - 1)
    same("the last values", (values(scene)[BINARY], values(scene)[TOTAL]), (("on", "", 0), (MANY, "", 2)))
    figures = scene.figures()
    same("figures", [figures["gateway_values_passed_over_total"], figures["gateway_events_left_out_total"]], [MANY - 1] * 2)
    lines = lines_in(path, 4)
    same("the gap in the file", [it.split(",")[9:] for it in lines[1:]],
         [[str(MANY - 1), "", "left out"], [str(MANY - 1), "", "spontaneous"], [str(MANY), "", "spontaneous"]])


@case
def values_asked_slowly(scene: Scene) -> None:
    """who takes values slowly keeps nobody from the rest of the status, and others are asked to come again"""
    # Values of so many points don't fit into what the system keeps for a connection that has little room.
    outstation = scene.outstation()
    points = [point(0, "binary", index, 1 + index) for index in range(500)]
    names = ["name,outstation,kind,index,address", *(f"{'n' * 100},0,binary,{index},{1 + index}" for index in range(500))]
    scene.status = free_place()
    scene.begin(scene.settings({}, points), options=["--status", scene.status, "--values", *scene.named("\n".join(names))])
    scene.accept(outstation)
    end = time.monotonic() + PATIENCE
    while len(told(scene)["points"]) < 500 and time.monotonic() < end:
        time.sleep(0.1)
    slow = [scene.asking(b"GET /points.json HTTP/1.1\r\n\r\n", room=2048) for _ in range(2)]
    time.sleep(2.0)
    for path, wanted in (("/alive", 200), ("/metrics", 200), ("/", 200), ("/points", 503), ("/points.csv", 503)):
        began = time.monotonic()
        code, fields, _ = asked(scene, path)
        same(f"the answer to {path}", code, wanted)
        if code == 503:
            same("when to come again", fields["Retry-After"], "1")
        if time.monotonic() - began > PROMPT:
            raise Difference(f"the answer to {path} took {time.monotonic() - began:.2f} s")
    for line in slow:
        line.connection.close()
    end = time.monotonic() + PATIENCE
    while asked(scene, "/points")[0] != 200 and time.monotonic() < end:
        time.sleep(0.1)
    same("the answer to /points", asked(scene, "/points")[0], 200)


# ---- events


def events_file(scene: Scene) -> Path:
    """A path at which nothing stands, in a folder that stands for as long as the scene does."""
    scene.folder = tempfile.TemporaryDirectory(ignore_cleanup_errors=True)
    return Path(scene.folder.name, "events.csv")


def lines_in(path: Path, count: int) -> list[str]:
    """The lines of a file, once it has so many."""
    lines, end = [], time.monotonic() + EVENT_LIMIT
    while len(lines) < count and time.monotonic() < end:
        with suppress(FileNotFoundError):
            lines = path.read_text().splitlines()
        time.sleep(0.02)
    same("how many lines the file has", len(lines), count)
    return lines


@case
def events_as_lines(scene: Scene) -> None:
    """each spontaneous observation is a line of a file, to which a gateway that is started again adds, also behind a line that was
    cut"""
    path = events_file(scene)
    path.write_text("earlier\ncut")
    scene.bend(WALL)
    scene.passed_over += r"|outstation 0 .*  .*"
    outstation = scene.outstation()
    scene.start(options=["--events", str(path), *scene.named(list_of(("Bay", "Q,0")))])
    link = scene.accept(outstation, is_told=False)
    link.send(response(0, ON))
    link.confirmed(unsolicited(1, EVENT))
    link.connection.close()
    scene.links.pop(outstation)
    front, point_of = f"{WALL_TEXT},", f"0,Bay,1,{BINARY},\"Q,0\",single point"
    same("the lines of the file", lines_in(path, 5), [
        "earlier", "cut", f"{front},,{point_of},on,,spontaneous", f"{front}{STAMP_TEXT},,{point_of},off,,spontaneous",
        f"{front},,{point_of},off,NT,spontaneous"])


@case
def events_in_files(scene: Scene) -> None:
    """events go on in a new file where one has its share, and the oldest file goes"""
    path = events_file(scene)
    scene.passed_over += f"|{LEFT_OUT}"
    outstation = scene.outstation()
    scene.start(options=["--events", str(path), "--events-keep", "1"], queue=65536)
    link = scene.accept(outstation)
    share = MEGABYTE // 8
    link.send(response(0))
    for turn in range(1, 31):
        link.confirmed(unsolicited(turn, inputs(255) + inputs(255)))

    def names() -> list[str]:
        return sorted(it.name for it in path.parent.iterdir())

    wanted = ["events.csv", *(f"events.csv.{it}" for it in range(1, 8))]
    end = time.monotonic() + WRITING
    while names() != wanted and time.monotonic() < end:
        time.sleep(0.05)
    time.sleep(1.5)
    same("the files", names(), wanted)
    for it in path.parent.iterdir():
        lines = it.read_text().splitlines()
        same(f"the first line of {it.name}", lines[0], COLUMNS)
        same(f"other lines of {it.name}", {line.split(",", 1)[1] for line in lines[1:]},
             {f",,0,,1,{BINARY},,single point,on,,spontaneous"})
        if it.stat().st_size > share:
            raise Difference(f"{it.name} has {it.stat().st_size} octets, and may have {share}")


def pipe(scene: Scene) -> Path:
    """A named pipe that stands for as long as the scene does."""
    path = events_file(scene)
    os.mkfifo(path)
    return path


def read_lines(pipe_end: int, count: int) -> list[str]:
    """The first lines that come from a pipe, so many, if they come in time."""
    octets, end = b"", time.monotonic() + PATIENCE
    while octets.count(b"\n") < count and select.select([pipe_end], [], [], max(0, end - time.monotonic()))[0]:
        octets += os.read(pipe_end, 65536)
    return octets.decode().splitlines()[:count]


@case
def events_to_a_pipe(scene: Scene) -> None:
    """a pipe that nobody reads holds up nothing, also at the end; a reader that goes is told once, and one that comes gets on"""
    outstation, path = scene.outstation(), pipe(scene)
    scene.start(options=["--events", str(path)])
    link = scene.accept(outstation)
    link.send(response(0, ON))
    line = f",,,0,,1,{BINARY},,single point,"
    with path.open() as reader:
        same("the columns", reader.readline(), f"{COLUMNS}\n")
        same("the first event", reader.readline()[24:], f"{line}on,,spontaneous\n")
    # Nobody reads: what is written next fails.
    link.confirmed(unsolicited(1, OFF_EVENT))
    scene.told(HINDERED)
    scene.told("1 observation left out of the events")
    # A reader that doesn't wait for who writes.
    pipe_end = os.open(path, os.O_RDWR)
    link.confirmed(unsolicited(2, ON_EVENT))
    got = read_lines(pipe_end, 3)
    scene.told(RESUMED)
    os.close(pipe_end)
    same("the columns, what was left out, and an event", [it.split(",", 1)[1] for it in got],
         [COLUMNS.split(",", 1)[1], ",,,,,,,,1,,left out", f"{line[1:]}on,,spontaneous"])
    # At the end the outstation is lost, and nobody reads that.
    scene.passed_over += f"|{HINDERED}|{LEFT_OUT}"


@case
def events_to_nobody(scene: Scene) -> None:
    """a pipe that never has a reader: control centres are served as ever, and the gateway ends"""
    outstation, path = scene.outstation(), pipe(scene)
    # Told at the end, unless the pipe takes what waits before it is closed.
    scene.passed_over += f"|{HINDERED}|{LEFT_OUT}"
    scene.start(options=["--events", str(path)])
    link, centre = scene.accept(outstation), scene.started()
    link.send(response(0, ON))
    centre.takes(BINARY_ON)
    link.connection.close()
    scene.lost(outstation, "lost: end of input")


@case
def events_to_a_deleted_pipe(scene: Scene) -> None:
    """a pipe that is deleted while its first event waits for a reader doesn't keep the gateway from its end"""
    outstation, path = scene.outstation(), pipe(scene)
    scene.passed_over += f"|{HINDERED}|{LEFT_OUT}"
    scene.start(options=["--events", str(path)])
    link = scene.accept(outstation)
    link.send(response(0, ON))
    time.sleep(LOOKING)
    path.unlink()


@case
def events_to_another_pipe(scene: Scene) -> None:
    """a pipe that is made where one was deleted has the events that waited for its reader"""
    outstation, path = scene.outstation(), pipe(scene)
    scene.passed_over += f"|{HINDERED}|{LEFT_OUT}"
    scene.start(options=["--events", str(path)])
    link = scene.accept(outstation)
    link.send(response(0, ON))
    time.sleep(LOOKING)
    path.unlink()
    os.mkfifo(path)
    pipe_end = os.open(path, os.O_RDONLY | os.O_NONBLOCK)
    got = read_lines(pipe_end, 2)
    os.close(pipe_end)
    same("the columns, and an event", [it.split(",", 1)[1] for it in got],
         [COLUMNS.split(",", 1)[1], f",,0,,1,{BINARY},,single point,on,,spontaneous"])
