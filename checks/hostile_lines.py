"""The surfaces that are given lines and files, played by `checks/fuzz`: settings files to `gateway check`, and lines to
`gateway replay` and `gateway translate`."""
import re
import resource
import subprocess
import time
import tomllib
import unicodedata
from collections import deque
from collections.abc import Iterable, Iterator
from pathlib import Path
from random import Random

import hostile
from framing import spelled
from judges.answers import Found, judge_replay, octets_in
from judges.reading import EVENTS, KINDS, Objects, read_response, refusal_of
from judges.settings_rules import answer_to_settings
from peers import ELEMENTS, Difference, confirmation
from program import ROOT, first_difference
from random_steps import Replay, Setup, random_fragment, random_setup

# How many seconds a run of a program may take, and its address space: what it takes beyond that it is refused.
RUN_LIMIT, ROOM = 20.0, 256 * 2**20


def run_lines(program: str, words: list[str], given: bytes) -> tuple[str, str, int, float]:
    """What the program writes for an input, on both streams, its status, and how many seconds it took."""
    began, pipes = time.monotonic(), dict.fromkeys(("stdin", "stdout", "stderr"), subprocess.PIPE)
    with subprocess.Popen([program, *words], **pipes) as process:
        resource.prlimit(process.pid, resource.RLIMIT_AS, (ROOM, ROOM))
        try:
            output, complaint = process.communicate(given, timeout=RUN_LIMIT)
        except subprocess.TimeoutExpired:
            process.kill()
            raise Difference(f"no end within {RUN_LIMIT} s") from None
    if process.returncode not in (0, 1):
        raise Difference(f"the status is {process.returncode}: {complaint[-500:]!r}")
    seconds = time.monotonic() - began
    return output.decode(errors="replace"), complaint.decode(errors="replace"), process.returncode, seconds


def text_of(lines: Iterable[bytes]) -> bytes:
    return b"".join(it + b"\n" for it in lines)


def told_of(setup: Setup, objects: Iterable[Objects]) -> Iterator[tuple[int, bool]]:
    """The addresses of the points that the objects of a response of outstation 0 tell of, in order, and whether each is an
    event: a static value is told only where it differs."""
    addresses = {it[1:3]: it[3] for it in setup.points if it[0] == 0}
    for key, indexes in objects:
        for index in indexes if key in KINDS else ():
            if (KINDS[key], index) in addresses:
                yield addresses[KINDS[key], index], key[0] in EVENTS


class TranslateJudge:
    """Judges the lines that `translate` writes, one after another."""

    def __init__(self, setup: Setup, output: str) -> None:
        self.setup, self.lines, self.due, self.refused = setup, deque(output.split("\n")), [], False
        if self.lines.pop():
            raise Difference("the output's last line has no end")

    def places_behind(self, place: int, address: int) -> Iterator[int]:
        """The places behind each next object of an address, before which there is no other event."""
        for number in range(place, len(self.due)):
            its_address, is_event = self.due[number]
            if its_address == address:
                yield number + 1
            if is_event:
                return

    def news(self) -> None:
        """The ASDUs that the lines before bring stand next: of each event one, and of some static values."""
        places = {0}
        while self.lines and self.lines[0].startswith("asdu "):
            octets = octets_in(self.lines.popleft()[5:].encode()) or b"\0"
            is_right = octets[0] in ELEMENTS and len(octets) == 9 + ELEMENTS[octets[0]]
            if not is_right or octets[1:6] != b"\1\3\0" + self.setup.commons[0].to_bytes(2, "little"):
                raise Difference(f"an ASDU that isn't right: {spelled(octets)}")
            address = int.from_bytes(octets[6:9], "little")
            places = {it for place in places for it in self.places_behind(place, address)}
        if all(any(is_event for _, is_event in self.due[place:]) for place in places):
            raise Difference(f"the ASDUs aren't those of {self.due[:20]}")
        self.due = []

    def wants(self, line: bytes, wanted: str) -> None:
        self.news()
        got = self.lines.popleft() if self.lines else "nothing"
        if got != wanted:
            raise Difference(f"{line[:300]!r} is answered {got!r}, wanted {wanted!r}")

    def judge(self, line: bytes) -> None:
        octets = octets_in(line)
        why = "0 Hex" if octets is None else refusal_of(octets)
        if why:
            self.refused = True
            self.wants(line, f"refused {why}")
            return
        if octets[0] & 0x20:
            self.wants(line, f"confirm {spelled(confirmation(octets))}")
        self.due.extend(told_of(self.setup, read_response(octets)))


def judge_translate(setup: Setup, lines: list[bytes], output: str, status: int) -> None:
    judge = TranslateJudge(setup, output)
    for line in filter(None, lines):
        judge.judge(line)
    judge.news()
    if judge.lines or status != judge.refused:
        left = list(judge.lines)[:1]
        raise Difference(f"wanted the end and status {judge.refused:d}, got status {status} and {left}")


def setup_of(text: str) -> Setup:
    """What settings mean to lines."""
    top = tomllib.loads(text)
    station, points, controls = top["station"], top.get("point", []), top.get("control", [])
    outstations = top.get("outstation", [])
    commons = [it.get("common_address", station["common_address"]) for it in outstations] or [station["common_address"]]
    return Setup(text, commons, station.get("k", 12), len(outstations),
                 [tuple(it[key] for key in ("outstation", "kind", "index", "address")) for it in points],
                 [tuple(it[key] for key in ("outstation", "show", "address")) for it in controls], [])


def kind_of(reply: str) -> str:
    """The first word of a reply, and its last one where that is a name."""
    first, *others = reply.split(" ")
    return " ".join([first, *(it for it in others[-1:] if len(it) > 2 and it.isalpha())])


def play_lines(program: str, surface: str, file: str, text: str, lines: list[bytes]) -> tuple[float, str]:
    """Runs a program over lines and judges it; gives how long it took, and its output."""
    Path(file).write_text(text)
    words = ["replay", file] if surface == "replay" else ["translate", "--settings", file]
    judge = judge_replay if surface == "replay" else judge_translate
    try:
        output, complaint, status, seconds = run_lines(program, words, text_of(lines))
        judge(setup_of(text), lines, output, status)
        if complaint:
            raise Difference(f"standard error: {complaint[:500]!r}")
    except Difference as fault:
        saved = dict(surface=surface, settings=text, lines=[it.decode("latin-1") for it in lines])
        raise Found(f"{surface}: {fault}", saved) from None
    return seconds, output


def translate(task: hostile.Task) -> None:
    """Random responses, and such with one thing wrong, 200 in a run."""
    for rng in task.turns():
        setup, lines = random_setup(rng), []
        for _ in range(200):
            line = random_fragment(rng, setup).encode()
            octets = octets_in(line)
            if octets and rng.random() < 0.6:
                line = hostile.wrong_hex(rng, hostile.wrong_fragment(rng, octets))
            lines.append(line)
        seconds, output = play_lines(task.program, "translate", task.file, setup.text, lines)
        task.tally.add(seconds, len(lines))
        task.tally.seen.update(kind_of(it) for it in output.splitlines())


def wrong_replay_line(rng: Random, line: str) -> bytes:
    """A line with one thing wrong: mostly its octets, where it has such."""
    verb, *words = line.split(" ")
    if verb not in ("frag", "frame") or rng.random() < 0.1:
        return hostile.wrong_step(rng, line).encode()
    octets = octets_in(" ".join(words[2:]).encode())
    if not octets:
        return line.encode()
    wrong = hostile.wrong_fragment(rng, octets) if verb == "frag" else hostile.changed(rng, octets)
    return " ".join([verb, *words[:2]]).encode() + b" " + hostile.wrong_hex(rng, wrong)


def replay(task: hostile.Task) -> None:
    """Random replays, of which what was answered so far tells how they go on; then some of the last lines are wrong."""
    for rng in task.turns():
        setup = random_setup(rng)
        script, wrong = Replay(rng, setup), []
        for _ in range(rng.randint(2, 12)):
            script.add_burst()
            lines = [it.encode() for it in script.lines]
            seconds, output = play_lines(task.program, "replay", task.file, setup.text, lines)
            script.learn(output.splitlines())
        for _ in range(3):
            script.add_burst()
        wrong = [wrong_replay_line(rng, it) if rng.random() < 0.2 else it.encode() for it in script.lines[len(lines) :]]
        seconds, output = play_lines(task.program, "replay", task.file, setup.text, lines + wrong)
        task.tally.add(seconds, len(lines) + len(wrong))
        task.tally.seen.update(kind_of(it) for it in output.splitlines())


def is_plain(text: str) -> bool:
    """Whether a text has no control character."""
    return all(unicodedata.category(it) != "Cc" for it in text)


def begins_with(refusal: str, complaint: str) -> bool:
    """Whether standard error has a hundred sentences at most, and the first is on what the file is refused for."""
    found = re.fullmatch(r"refused [2-8] [A-Za-z]+ (\S+) (\d+) (.*)", refusal)
    sentences = complaint.removesuffix("\n").split("\n")
    if not found:
        return len(sentences) == 1 or refusal == "refused 1 Toml"
    section, position, key = found.groups()
    entry = section if section in ("top", "station") else f"{section} {position}"
    has_key = key in ("", "count") or key in sentences[0]
    is_of_entry = sentences[0].startswith((f"{entry}:", f"{entry} "))
    return is_of_entry and has_key and len(sentences) <= 101


def judge_settings(octets: bytes, output: str, complaint: str, status: int) -> None:
    """What `gateway check` writes of a file is what the tables say."""
    lines = output.split("\n")[:-1]
    is_refused = lines[:1] == [it for it in lines[:1] if it.startswith("refused ")] != []
    if status != is_refused or is_refused and len(lines) != 1 or not is_refused and not lines:
        raise Difference(f"status {status} and {lines[:3]}")
    if is_refused and not complaint.strip() or not is_plain(complaint.replace("\n", "")):
        raise Difference(f"standard error: {complaint[:300]!r}")
    if is_refused and not begins_with(lines[0], complaint):
        raise Difference(f"standard error begins otherwise than {lines[0]!r}: {complaint[:300]!r}")
    try:
        wanted = answer_to_settings(octets)
    except RecursionError:
        return
    # Control characters of a key's name are escaped.
    if lines != wanted and not (len(wanted) == 1 and not is_plain(wanted[0]) and "UnknownKey" in lines[0]):
        raise Difference(first_difference("\n".join(lines).encode(), "\n".join(wanted).encode()))


def play_settings(program: str, file: str, octets: bytes) -> tuple[float, str]:
    """Checks a file of settings, and tries the other programs on it; gives how long that took, and the first line."""
    Path(file).write_bytes(octets)
    try:
        output, complaint, status, seconds = run_lines(program, ["check", file], b"")
        judge_settings(octets, output, complaint, status)
        first = output.split("\n")[0]
        for words in (["check", file, "--profile"], ["replay", file], ["translate", "--settings", file]):
            other, _, its_status, more = run_lines(program, words, b"")
            seconds = max(seconds, more)
            if its_status != status or status and other != f"{first}\n":
                raise Difference(f"{words[0]}: wanted {status} and {first!r}, got {its_status} and {other[:200]!r}")
    except Difference as fault:
        raise Found(f"settings: {fault}", dict(surface="settings", octets=octets.decode("latin-1"))) from None
    return seconds, first


def settings(task: hostile.Task) -> None:
    """Settings files of this repository, and random ones, mostly with one thing wrong."""
    paths = [*(ROOT / "transcripts/settings").glob("*.toml"), *(ROOT / "examples").glob("*.toml")]
    texts = [it.read_text() for it in sorted(paths)]
    for rng in task.turns():
        text = rng.choice(texts) if rng.random() < 0.6 else random_setup(rng).text
        seconds, first = play_settings(task.program, task.file, hostile.wrong_settings(rng, text))
        task.tally.add(seconds)
        task.tally.seen[" ".join(first.split(" ")[:3]) if first.startswith("refused") else "accepted"] += 1
