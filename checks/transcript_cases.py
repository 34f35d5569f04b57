"""The cases of transcripts/, as transcripts/README.md tells how they are written."""
import re
import sys
from collections.abc import Iterable
from dataclasses import dataclass, field, replace
from pathlib import Path

from program import ROOT

ESCAPES = {b"t": b"\t", b"r": b"\r", b"0": b"\0", b"\\": b"\\", b"c": b""}


@dataclass
class Case:
    """Words of a command line, what is given on standard input, and what is wanted of both outputs and the status.

    Standard error is compared only where a line tells of it.
    """

    title: str
    place: str
    words: list = field(default_factory=list)
    given: bytearray = field(default_factory=bytearray)
    wanted: bytearray = field(default_factory=bytearray)
    complaint: bytes | None = None
    status: int = 0
    each: list = field(default_factory=list)


def octet_of(escape: re.Match[bytes]) -> bytes:
    """The octet that an escape stands for."""
    name = escape[1]
    return bytes([int(name[1:], 16)]) if name[:1] == b"x" else ESCAPES[name]


def octets_of(text: bytes) -> bytes:
    """The octets of a line: `(..)*N` written out, its escapes read, and its end, unless it ends in `\\c`."""
    end = b"" if text.endswith(b"\\c") else b"\n"
    text = re.sub(rb"\(([^()]*)\)\*(\d+)", lambda it: it[1] * int(it[2]), text)
    return re.sub(rb"\\(x[0-9A-F]{2}|[tr0\\c])", octet_of, text) + end


def add(case: Case, line: bytes, where: str) -> None:
    """One line of a case behind its title."""
    if line.startswith(b"$ ./gateway "):
        case.words = line.decode().split()[2:]
    elif not case.words:
        sys.exit(f"{where}: a case begins with its command")
    elif line == b">" or line.startswith(b"> "):
        case.given += octets_of(line[2:])
    elif line.startswith(b"! "):
        case.complaint = (case.complaint or b"") + octets_of(line[2:])
    elif match := re.fullmatch(rb"status (\d+)", line):
        case.status = int(match[1])
    else:
        case.wanted += octets_of(line)


def add_block(case: Case, kind: bytes, lines: list[bytes], where: str) -> None:
    """The lines between `repeat N` or `each` and `end`."""
    if kind == b"each":
        case.each += [octets_of(it.removeprefix(b"> ")) for it in lines]
        return
    for n in range(int(kind.split()[1])):
        for line in lines:
            add(case, line.replace(b"{n}", b"%d" % n), where)


def cases_of(path: Path) -> list[Case]:
    """The cases of a file, in order."""
    cases, kind, block = [], None, []
    for number, line in enumerate(path.read_bytes().split(b"\n"), 1):
        where = f"{path.relative_to(ROOT)}:{number}"
        if line.startswith(b"#") or not line:
            continue
        if line.startswith(b"== "):
            cases.append(Case(line[3:].decode(), where))
        elif not cases:
            sys.exit(f"{where}: no case has begun")
        elif line == b"end" and kind:
            add_block(cases[-1], kind, block, where)
            kind, block = None, []
        elif kind:
            block.append(line)
        elif re.fullmatch(rb"repeat \d+|each", line):
            kind = line
        else:
            add(cases[-1], line, where)
    if kind:
        sys.exit(f"{path.relative_to(ROOT)}: {kind.decode()} has no end")
    return cases


def one_by_one(case: Case) -> list[Case]:
    """A case, or one for each line where there are such."""
    return [replace(case, given=bytearray(it), each=[]) for it in case.each] or [case]


def read_cases(names: Iterable[str]) -> list[Case]:
    """The cases of the files with these names, or of all."""
    paths = [Path(it).resolve() for it in names] or sorted((ROOT / "transcripts").glob("*.txt"))
    return [one for path in paths for case in cases_of(path) for one in one_by_one(case)]
