"""Cases of `checks/serve`: records of a run in a file and in the pieces that a folder keeps, which of them go, records that
are cut, and captures of them."""
import hashlib
import os
import random
import re
import shutil
import socket
import struct
import subprocess
import tempfile
import time
from collections.abc import Callable, Iterable, Iterator
from contextlib import contextmanager
from datetime import datetime, timezone
from pathlib import Path

from framing import MASTER, frame, segments, spelled
from harness import EVENT_TIME, LOST, OBJECTS, ROWS, SHOWN, VERSION, WALL, Scene, case, count_up
from peers import PATIENCE, Difference, Link, confirmation, response, same, unsolicited

# The octets of a megabyte, and how many events of the counter a fragment of 2,048 octets has at most.
MEGABYTE, EVENTS_EACH = 1_000_000, 150
# What a run is named that begins at WALL, and a second later.
FIRST_RUN, SECOND_RUN = "20231114T221320Z", "20231114T221321Z"
# How many seconds a replay of some megabytes may take, by a program that checks its addresses.
REPLAY_LIMIT = 60
# The names of a piece's files, and what is told of each.
PIECE = re.compile(r"(\d{8}T\d{6}Z)-(\d{4})\.(run|answers|about)")
TOLD_OF_PIECE = ["version", "settings", "sha256", "start", "piece", "before"]
RECORDING_ENDED = "the recording ended at step #: "
# How often a record is cut by chance, beside each octet of its last lines; and how far these go.
CUTS, LAST = 30, 60


# ---- records in a file


@case
def recorded(scene: Scene) -> None:
    """a run with losses is taken down, and replayed with the same replies"""
    with tempfile.TemporaryDirectory() as folder:
        record = Path(folder, "run")
        outstation = scene.outstation()
        scene.start(options=["--record", str(record)])
        for lost in ("lost: reset by peer", "lost again: reset by peer (2 times since #:#)"):
            link, centre = scene.accept(outstation), scene.started()
            link.confirmed(response(0, OBJECTS, con=True))
            centre.takes(*SHOWN)
            centre.interrogate(*ROWS)
            link.reset()
            scene.lost(outstation, lost)
            centre.takes(*LOST)
            centre.reset()
            scene.closed(centre, "lost: reset by peer")
        scene.accept(outstation, is_told=False)
        scene.finish()
        scene.process = None
        replay = subprocess.run([*scene.words, "replay", scene.file.name], input=record.read_bytes(), capture_output=True)
        same("the status of the replay", replay.returncode, 0)
        answers = Path(f"{record}.answers").read_bytes()
        same("the replies", replay.stdout.splitlines(), answers.splitlines())
        if not answers:
            raise Difference("the replies: wanted some, got none")


def opened_as_it_is(scene: Scene, record: Path) -> None:
    """The gateway that is started next writes its record into what stands there."""
    scene.bend()
    scene.environment["OPENED_AS_IT_IS"] = str(record)


@case
def record_on_a_full_disk(scene: Scene) -> None:
    """a record that can't be written ends, and the gateway serves on"""
    with tempfile.TemporaryDirectory() as folder:
        record = Path(folder, "run")
        record.symlink_to("/dev/full")
        opened_as_it_is(scene, record)
        scene.start(witness=True, options=["--record", str(record)])
        scene.told("the recording ended at step #: it couldn't be written")
        scene.started()


@case
def record_of_a_megabyte(scene: Scene) -> None:
    """a record that would become too large ends, and the gateway serves on"""
    with tempfile.TemporaryDirectory() as folder:
        record, outstation = Path(folder, "run"), scene.outstation()
        scene.start(k=32767, queue=65536, options=["--record", str(record), "--record-size", "1"])
        link, centres = scene.accept(outstation), [scene.started(), scene.started()]
        link.send(response(0))
        news = count_up(link, 80)
        scene.told("the recording ended at step #: it has 1 MB")
        for centre in centres:
            centre.takes(*news)
        sizes = [file.stat().st_size for file in (record, Path(f"{record}.answers"))]
        if not 900_000 < max(sizes) <= 1_000_000:
            raise Difference(f"octets of the record: wanted a megabyte in one file, got {sizes}")


@case
def record_without_an_end(scene: Scene) -> None:
    """that the last lines of a record can't be written is told, though all else has ended"""
    with tempfile.TemporaryDirectory() as folder:
        record, outstation = Path(folder, "run"), scene.outstation()
        os.mkfifo(record)
        opened_as_it_is(scene, record)
        # More is recorded than a pipe takes, and it breaks once the gateway has stopped.
        reading = os.open(record, os.O_RDONLY | os.O_NONBLOCK)
        scene.start(options=["--record", str(record)])
        link = scene.accept(outstation)
        link.send(response(0))
        count_up(link, 20)
        scene.process.stdin.close()
        with scene.noted:
            scene.noted.wait_for(lambda: "stopped" in [text for text, _ in scene.notes], PATIENCE)
        os.close(reading)
        scene.told("the recording ended at step #: it couldn't be written")


@case
def records_that_are_there(scene: Scene) -> None:
    """a record whose file, or that of its replies, is there isn't begun, and neither is touched"""
    file = scene.settings({}, [])
    with tempfile.TemporaryDirectory() as folder:
        for there, gone in (("run", "run.answers"), ("run.answers", "run")):
            Path(folder, there).write_text("before")
            scene.run(file, "--record", f"{folder}/run")
            written, complaint = scene.process.communicate(timeout=PATIENCE)
            same("output, complaint, status", (written, complaint, scene.process.returncode),
                 ("refused record\n", f"<3>can't write the record {folder}/{there}: it is there already\n", 1))
            same("what stands there", [(it.name, it.read_text()) for it in Path(folder).iterdir()], [(there, "before")])
            Path(folder, there).unlink()
    scene.process = None


# ---- records in a folder


@contextmanager
def records() -> Iterator[Path]:
    """The path of a folder that isn't there."""
    with tempfile.TemporaryDirectory(ignore_cleanup_errors=True) as folder:
        yield Path(folder, "records")


def pieces_in(folder: Path, run: str = "") -> list[Path]:
    """The files of pieces in a folder, in their order, of a run or of all."""
    return sorted(it for it in folder.iterdir() if PIECE.fullmatch(it.name) and it.name.startswith(run))


def octets_in(files: Iterable[Path]) -> int:
    return sum(it.stat().st_size for it in files)


def runs_in(folder: Path) -> list[str]:
    return sorted({PIECE.fullmatch(it.name)[1] for it in pieces_in(folder)})


def text_of(folder: Path, run: str, ending: str) -> bytes:
    """What a run's files that end so have together, as a shell puts them behind each other."""
    return b"".join(it.read_bytes() for it in sorted(folder.glob(f"{run}-*.{ending}")))


def replayed(scene: Scene, octets: bytes) -> subprocess.CompletedProcess[bytes]:
    return subprocess.run([*scene.words, "replay", scene.file.name], input=octets, capture_output=True, timeout=REPLAY_LIMIT)


def replays(scene: Scene, folder: Path, run: str) -> None:
    """The pieces of a run replay with the replies that stand beside them."""
    replay, answers = replayed(scene, text_of(folder, run, "run")), text_of(folder, run, "answers")
    same(f"the status of the replay of {run}", replay.returncode, 0)
    same(f"the replies of {run}", replay.stdout.splitlines(), answers.splitlines())
    if not answers:
        raise Difference(f"the replies of {run}: wanted some, got none")


def keep(scene: Scene, folder: Path, keep: int | None = None, size: int = 1) -> Link:
    """Starts the gateway with a folder of records, and connects its outstation; gives the connection."""
    options = ["--record-folder", str(folder), "--record-size", str(size)]
    outstation = next(iter(scene.outstations), None) or scene.outstation()
    scene.start(options=options + (["--record-keep", str(keep)] if keep else []))
    link = scene.accept(outstation)
    link.send(response(0))
    link.told = 0
    return link


def fill(link: Link, megabytes: float) -> None:
    """The outstation reports so much that the steps of a record get so many megabytes more."""
    fragments = round(megabytes * MEGABYTE / (3 * (4 + 5 + 13 * EVENTS_EACH)))
    for _ in range(fragments):
        counts = [(link.told * EVENTS_EACH + it).to_bytes(4, "little") for it in range(EVENTS_EACH)]
        events = b"".join(b"\0\0\1" + it + EVENT_TIME for it in counts)
        link.confirmed(unsolicited(link.told, bytes.fromhex("16 05 28") + EVENTS_EACH.to_bytes(2, "little") + events))
        link.told += 1


def wait_for(what: str, holds: Callable[[], bool]) -> None:
    """Waits until something holds."""
    end = time.monotonic() + PATIENCE
    while not holds():
        if time.monotonic() > end:
            raise Difference(f"{what}: wanted in {PATIENCE} s")
        time.sleep(0.02)


def told_of(file: Path) -> dict[str, str]:
    """What an `.about` tells, by name; each is told once, and in this order."""
    told = dict(line.split(": ", 1) for line in file.read_text().splitlines())
    same(f"what {file.name} tells of", list(told), [it for it in [TOLD_OF_PIECE[0], "commit", *TOLD_OF_PIECE[1:]] if it in told])
    return told


def is_about(scene: Scene, files: list[Path], before: str | None, commit: str | None = None) -> str | None:
    """The `.about` of each piece tells what it is of, and the piece before it. Gives the name of the last piece."""
    digest = hashlib.sha256(Path(scene.file.name).read_bytes()).hexdigest()
    for number, file in enumerate(files, 1):
        told = told_of(file)
        start = datetime.strptime(told.pop("start"), "%Y-%m-%dT%H:%M:%S.%fZ").replace(tzinfo=timezone.utc).timestamp()
        if not scene.is_now(start):
            raise Difference(f"the start in {file.name}: wanted one of now, got {start}")
        wanted = dict(version=VERSION, settings=scene.file.name, sha256=digest, piece=str(number))
        same(f"what {file.name} tells", told, wanted | (dict(before=before) if before else {}) |
             (dict(commit=commit) if commit else {}))
        before = file.stem
    return before


@case
def runs_in_pieces(scene: Scene) -> None:
    """a folder, which is made, keeps a run in pieces of a megabyte, and another one behind a restart in the same second; each
    piece tells what it is of and which is before it, and each run replays as a whole"""
    with records() as folder:
        scene.bend(WALL)
        link = keep(scene, folder)
        fill(link, 2.5)
        scene.finish()
        names = [it.name for it in pieces_in(folder)]
        same("the files", names, [f"{FIRST_RUN}-000{number}.{ending}" for number in (1, 2, 3)
                                  for ending in ("about", "answers", "run")])
        sizes = [it.stat().st_size for it in sorted(folder.glob("*.run"))]
        if max(sizes) > MEGABYTE or min(sizes[:2]) < 0.98 * MEGABYTE:
            raise Difference(f"the sizes of pieces: wanted two of a megabyte and one of half, got {sizes}")
        link = keep(scene, folder)
        link.confirmed(unsolicited(0, OBJECTS))
        scene.finish()
        scene.process = None
        same("the runs", runs_in(folder), [FIRST_RUN, SECOND_RUN])
        last = is_about(scene, sorted(folder.glob(f"{FIRST_RUN}-*.about")), None)
        is_about(scene, sorted(folder.glob(f"{SECOND_RUN}-*.about")), last)
        for run in runs_in(folder):
            replays(scene, folder, run)


@case
def commit_beside_the_program(scene: Scene) -> None:
    """the commit that stands in a file beside the program is told of each piece; what is no commit isn't"""
    with records() as folder, tempfile.TemporaryDirectory() as place:
        program, commit = Path(place, "gateway"), Path(place, "COMMIT")
        shutil.copy(scene.words[-1], program)
        scene.words = [*scene.words[:-1], str(program)]
        for text, wanted in ((f"{'9ec8f129' * 5}\n", "9ec8f129" * 5), ("unknown: git told nothing\n", None)):
            commit.write_text(text)
            keep(scene, folder)
            scene.finish()
            file = pieces_in(folder, runs_in(folder)[-1])[0]
            same("the commit", told_of(file).get("commit"), wanted)
        scene.process = None


def old_run(folder: Path, run: str, *sizes: int) -> None:
    """Files of an earlier run: pieces of so many octets of steps."""
    for number, size in enumerate(sizes, 1):
        for ending, octets in (("run", size), ("answers", 100), ("about", 100)):
            (folder / f"{run}-{number:04}.{ending}").write_bytes(b"\n" * octets)


@case
def oldest_runs_go(scene: Scene) -> None:
    """of a folder with as much as may be kept the oldest runs go, each as a whole, and nothing else; the run under way stays, and
    its record ends where it alone would have more"""
    oldest, younger = "20200101T000000Z", "20200102T000000Z"
    with records() as folder:
        folder.mkdir()
        old_run(folder, oldest, 900_000, 300_000)
        old_run(folder, younger, 900_000)
        others = [folder / it for it in ("notes.txt", f"{oldest}-0001.runs", f"{oldest}-1.run", "20200101T00000Z-0001.run")]
        for file in others:
            file.write_bytes(b"a" * 2 * MEGABYTE)
        link = keep(scene, folder, keep=4)
        own = runs_in(folder)[-1]

        def has_room() -> None:
            same("octets of all runs, at most", max(octets_in(pieces_in(folder)), 4 * MEGABYTE), 4 * MEGABYTE)

        for left, megabytes in (([oldest, younger, own], 1.7), ([younger, own], 2.2), ([own], 3.3)):
            fill(link, megabytes - octets_in(pieces_in(folder, own)) / MEGABYTE)
            wait_for(f"{megabytes} MB of the run", lambda: octets_in(pieces_in(folder, own)) > (megabytes - 0.1) * MEGABYTE)
            same("the runs that are left", runs_in(folder), left)
            has_room()
        fill(link, 1.2)
        scene.told(RECORDING_ENDED + "it has 4 MB")
        has_room()
        if octets_in(pieces_in(folder)) < 3.98 * MEGABYTE:
            raise Difference(f"the octets of the run: wanted four megabytes, got {octets_in(pieces_in(folder))}")
        same("what is no run", [it.stat().st_size for it in others], [2 * MEGABYTE] * len(others))
        scene.started()
        scene.finish()
        scene.process = None
        replays(scene, folder, own)


@case
def two_gateways(scene: Scene) -> None:
    """two gateways with one folder name their runs apart, also where they begin in the same second, and neither takes away the run
    that the other has under way; once that has ended it goes"""
    other = Scene(scene.words)
    try:
        with records() as folder:
            for it in (scene, other):
                it.bend(WALL)
            link, younger = keep(scene, folder, keep=2), keep(other, folder, keep=2)
            same("the runs", runs_in(folder), [FIRST_RUN, SECOND_RUN])
            fill(link, 1.2)
            wait_for("the first run", lambda: octets_in(pieces_in(folder, FIRST_RUN)) > 1.2 * MEGABYTE)
            kept = octets_in(pieces_in(folder, FIRST_RUN))
            fill(younger, 1.2)
            other.told(RECORDING_ENDED + "it has 2 MB")
            if octets_in(pieces_in(folder, FIRST_RUN)) < kept:
                raise Difference("the run of the first gateway is gone, or a part of it")
            other.finish()
            other.process = None
            scene.finish()
            scene.process = None
            replays(scene, folder, FIRST_RUN)
            replays(other, folder, SECOND_RUN)
            link = keep(scene, folder, keep=2)
            fill(link, 1)
            wait_for("the end of the first run", lambda: FIRST_RUN not in runs_in(folder))
            scene.finish()
            scene.process = None
    finally:
        other.close()


@case
def folder_that_goes(scene: Scene) -> None:
    """a record whose folder is gone ends, and the gateway serves on"""
    with records() as folder:
        link = keep(scene, folder)
        fill(link, 0.1)
        shutil.rmtree(folder)
        scene.told(RECORDING_ENDED + "it couldn't be written")
        centre = scene.started()
        link.confirmed(unsolicited(link.told, OBJECTS))
        centre.takes(*SHOWN)
        centre.interrogate(*ROWS)


@contextmanager
def small_disk(folder: Path, kilobytes: int) -> Iterator[bool]:
    """A file system of its own that is so small, where this script may make one; gives whether there is one."""
    folder.mkdir()
    words = ["mount", "-t", "tmpfs", "-o", f"size={kilobytes}k", "none", str(folder)]
    is_there = os.geteuid() == 0 and subprocess.run(words, capture_output=True).returncode == 0
    try:
        yield is_there
    finally:
        if is_there:
            subprocess.run(["umount", "-l", str(folder)], check=True)


@case
def full_disk(scene: Scene) -> None:
    """a record in a folder of a disk that is full ends, the gateway serves on, and what stands there replays up to its end"""
    with records() as folder, small_disk(folder, 1500) as is_there:
        if not is_there:
            print("serve: a record on a full disk is passed over: no file system can be mounted here")
            return
        link = keep(scene, folder)
        fill(link, 1.8)
        scene.told(RECORDING_ENDED + "it couldn't be written")
        scene.started()
        scene.finish()
        scene.process = None
        run, = runs_in(folder)
        same("the pieces", len(list(folder.glob("*.run"))), 2)
        replays_up_to(scene, text_of(folder, run, "run"), text_of(folder, run, "answers"))


def replays_up_to(scene: Scene, octets: bytes, answers: bytes) -> None:
    """What stands of a record replays with the replies that stand beside it, as far as its whole lines go."""
    got, wanted = replayed(scene, octets).stdout.splitlines(), answers.split(b"\n")[:-1]
    whole = min(octets.count(b"\n"), len(wanted))
    same("the replies to whole lines", got[:whole], wanted[:whole])
    if whole == 0 or len(got) < whole:
        raise Difference(f"the replies: wanted {whole} at least, got {len(got)}")


@case
def killed_gateway(scene: Scene) -> None:
    """a record of a gateway that is killed replays up to where it was written, and so does the next one behind a restart"""
    with records() as folder:
        link = keep(scene, folder)
        fill(link, 1.3)
        scene.process.kill()
        scene.process.wait(PATIENCE)
        run, = runs_in(folder)
        replays_up_to(scene, text_of(folder, run, "run"), text_of(folder, run, "answers"))
        scene.links.clear()
        scene.notes.clear()
        next(iter(scene.outstations)).listener.settimeout(PATIENCE)
        link = keep(scene, folder)
        fill(link, 0.1)
        scene.finish()
        scene.process = None
        same("the runs", len(runs_in(folder)), 2)
        replays(scene, folder, runs_in(folder)[1])


# ---- captures

# The addresses that are made up: of the gateway, the first outstation, and the first control centre.
GATEWAY, OUTSTATION, CENTRE = "192.0.2.1", "198.51.100.1", "203.0.113.1"
MADE_ANEW = "addresses, link frames, transport and TCP are made anew: this isn't what was on the wire"
SYN, ACK = 0x02, 0x10
# An address and a port. A packet: when it was, from where to where, its numbers, flags and octets.
Place = tuple[str, int]
Packet = tuple[float, list[Place], tuple[int, int], int, bytes]
# The words of a line of a record, and those of its reply.
Step = tuple[list[str], list[str]]


def captured(scene: Scene, octets: bytes, out: str) -> tuple[str, str, bytes]:
    """Makes a capture of a record; gives what is written on both outputs, and the octets of the file."""
    ran = subprocess.run([*scene.words, "pcap", scene.file.name, out], input=octets, capture_output=True, timeout=PATIENCE)
    same("the status of the capture", ran.returncode, 0)
    return ran.stdout.decode(), ran.stderr.decode(), Path(out).read_bytes()


def short_record(scene: Scene) -> tuple[bytes, bytes]:
    """The steps and the replies of a record with an outstation, and a control centre that interrogates and goes."""
    with records() as folder:
        link, centre = keep(scene, folder), scene.started()
        link.confirmed(unsolicited(0, OBJECTS))
        centre.takes(*SHOWN)
        centre.interrogate(*ROWS)
        scene.leave(centre)
        scene.finish()
        scene.process = None
        run, = runs_in(folder)
        return text_of(folder, run, "run"), text_of(folder, run, "answers")


@case
def cut_anywhere(scene: Scene) -> None:
    """a record that is cut at any octet replays up to there, and is captured up to there, which is told"""
    octets, answers = short_record(scene)
    rng, last = random.Random(104), range(len(octets) - LAST, len(octets))
    whole = octets.index(b"\n") + 1
    for end in [*last, *(rng.randrange(whole, len(octets)) for _ in range(CUTS))]:
        replays_up_to(scene, octets[:end], answers)
    with tempfile.TemporaryDirectory() as folder:
        start = octets.rindex(b"\n", 0, -1) + 1
        whole, part = (captured(scene, octets[:it], f"{folder}/{it}.pcap") for it in (start, start + 2))
        same("what is told of a cut", part[1].splitlines(), ["the last line has no end, and is left out", MADE_ANEW])
        same("the packets of a record that is cut", part[2], whole[2])


def checksum(octets: bytes) -> int:
    """The sum of words of 16 bits in one's complement, which is 0xFFFF where it is right."""
    total = sum(struct.unpack(f">{len(octets) // 2}H", octets[: len(octets) // 2 * 2])) + (octets[-1] << 8) * (len(octets) % 2)
    while total >> 16:
        total = (total & 0xFFFF) + (total >> 16)
    return total


def packets_in(octets: bytes) -> list[Packet]:
    """The packets of a capture: when each was, from and to which addresses and ports, its numbers, flags and octets. Lengths and
    checksums are what they have to be."""
    same("the front of the file", spelled(octets[:24]), "D4 C3 B2 A1 02 00 04 00 00 00 00 00 00 00 00 00 FF FF 00 00 65 00 00 00")
    packets, at = [], 24
    while at < len(octets):
        seconds, microseconds, length, whole = struct.unpack_from("<4I", octets, at)
        packet, at = octets[at + 16 : at + 16 + length], at + 16 + length
        same("lengths of a packet", (whole, struct.unpack_from(">H", packet, 2)[0], len(packet)), (length,) * 3)
        same("the checksum of IP", checksum(packet[:20]), 0xFFFF)
        segment = packet[20:]
        same("the checksum of TCP", checksum(packet[12:20] + struct.pack(">HH", 6, len(segment)) + segment), 0xFFFF)
        ports, numbers = struct.unpack_from(">2H", segment), struct.unpack_from(">2I", segment, 4)
        places = [(socket.inet_ntoa(packet[it : it + 4]), port) for it, port in zip((12, 16), ports)]
        packets.append((seconds + microseconds / 1e6, places, numbers, segment[13], segment[segment[12] // 16 * 4 :]))
    return packets


def streams_in(packets: list[Packet]) -> dict[tuple[Place, Place], bytes]:
    """What each end sent to the other on each connection, by their places; each octet has the number behind the one before, and
    each number that acknowledges is the one behind what came."""
    streams, following = {}, {}
    for _, (sender, receiver), (number, acknowledged), flags, payload in packets:
        way, back = (sender, receiver), (receiver, sender)
        if flags & SYN:
            following[way] = number
            streams[way] = b""
        same(f"the number of a segment from {sender}", number, following[way])
        if flags & ACK:
            same(f"what {sender} acknowledges", acknowledged, following[back])
        streams[way] += payload
        following[way] = number + len(payload) + bool(flags & 3)
    return streams


def lines_of(octets: bytes, answers: bytes) -> list[Step]:
    return [(line.split(), reply.split()) for line, reply in zip(octets.decode().splitlines(), answers.decode().splitlines())]


def wanted_streams(lines: list[Step]) -> tuple[bytes, bytes, bytes, bytes]:
    """What a record shows: the frames from the outstation and to it, and the APDUs from the control centre and to it."""
    from_outstation, to_outstation, from_centre, to_centre, sent, got = b"", b"", b"", b"", 0, 0
    for (verb, *words), reply in lines:
        octets = bytes.fromhex("".join(words[2:])) if verb in ("frag", "frame") else b""
        back = bytes.fromhex("".join(reply[1:])) if reply[0] in ("apdu", "request") else b""
        if verb == "frag":
            for segment in segments(octets, got):
                from_outstation += frame(segment)
                got += 1
            back = confirmation(octets) if "confirm" in reply else b""
        if verb in ("frag", "poll") and back:
            to_outstation += frame(bytes([0xC0 | sent % 64]) + back, 0xC4, 1, MASTER)
            sent += 1
        if verb == "frame":
            from_centre += octets
        if verb == "pump":
            to_centre += back
    return from_outstation, to_outstation, from_centre, to_centre


@case
def capture_of_a_record(scene: Scene) -> None:
    """a capture of a record has each fragment and each APDU, in frames and packets without a fault, at made-up addresses and at the
    time of day; that they are made anew is told, and a file that is there isn't written over"""
    began = time.time()
    octets, answers = short_record(scene)
    with tempfile.TemporaryDirectory() as folder:
        out = f"{folder}/run.pcap"
        written, told, capture = captured(scene, octets, out)
        packets = packets_in(capture)
        same("what is told", (written, told), (f"packets {len(packets)}\n", f"{MADE_ANEW}\n"))
        times = [it[0] for it in packets]
        if not began - 0.1 <= min(times) <= max(times) <= time.time():
            raise Difference(f"the times of packets: wanted some since {began}, got {min(times)} to {max(times)}")
        found = {(way[0][0], way[1][0]): it for way, it in streams_in(packets).items()}
        places = [(OUTSTATION, GATEWAY), (GATEWAY, OUTSTATION), (CENTRE, GATEWAY), (GATEWAY, CENTRE)]
        same("the addresses", sorted(found), sorted(places))
        for way, wanted in zip(places, wanted_streams(lines_of(octets, answers))):
            same(f"what goes from {way[0]} to {way[1]}", spelled(found[way]), spelled(wanted))
        ports = {place for it in packets for place in it[1]}
        same("the ports that are called", {(OUTSTATION, 20000), (GATEWAY, 2404)} <= ports, True)
        ran = subprocess.run([*scene.words, "pcap", scene.file.name, out], input=octets, capture_output=True, text=False)
        same("a second capture", (ran.returncode, ran.stdout, ran.stderr),
             (1, b"refused capture\n", f"can't write the capture {out}: it is there already\n".encode()))
        same("the first one", Path(out).read_bytes(), capture)


@case
def capture_of_other_lines(scene: Scene) -> None:
    """a capture of lines that are none of a replay has what stands before them, and one of octets that are refused all others"""
    scene.outstation()
    scene.settings({}, [])
    with tempfile.TemporaryDirectory() as folder:
        for octets, count in ((b"open 0 1\nopen 0\nclose 0 2\n", 3), (b"open 0 1\nframe 0 2 68\nclose 0 3\n", 6)):
            out = f"{folder}/{count}.pcap"
            ran = subprocess.run([*scene.words, "pcap", scene.file.name, out], input=octets, capture_output=True)
            packets = packets_in(Path(out).read_bytes())
            wanted = (1, f"refused line 2\npackets {count}\n".encode())
            same("the status and what is told", (ran.returncode, ran.stdout), wanted)
            # Without a poll, times count from 1970 on.
            same("the packets, and when the first was", (len(packets), packets[0][0]), (count, 0.001))
