"""The program that is tried: where it stands, how it is built, what a process of it takes, and where its output differs."""
import os
import subprocess
from pathlib import Path

ROOT = Path(__file__).resolve().parent.parent
# The program: the proved one, or another that the environment names.
NAMED = os.environ.get("GATEWAY_PROGRAM")
PROGRAM = Path(NAMED or ROOT / "crates/gw_program/out/gw_program")


def build() -> None:
    """Proves and builds the program, unless it stands, or another one is named."""
    if not NAMED:
        subprocess.run(["./gateway", "--prove"], cwd=ROOT, stdin=subprocess.DEVNULL, check=True)


def resources(pid: int) -> tuple[int, tuple[int, int, int]]:
    """How many kB of memory, threads, open files and children a process has."""
    with open(f"/proc/{pid}/status") as file:
        status = dict(line.split(":", 1) for line in file)
    with open(f"/proc/{pid}/task/{pid}/children") as file:
        children = len(file.read().split())
    memory, threads = (int(status[it].split()[0]) for it in ("VmRSS", "Threads"))
    return memory, (threads, len(os.listdir(f"/proc/{pid}/fd")), children)


def made_library(name: str, folder: str) -> str:
    """The library of a C file of this folder, made in another one, that a program preloads."""
    library = f"{folder}/{name}.so"
    subprocess.run(["cc", "-shared", "-fPIC", "-O2", "-o", library, ROOT / f"checks/{name}.c"], check=True)
    return library


def first_difference(found: bytes, wanted: bytes) -> str:
    """The first line that differs, as found and as wanted."""
    one, other = bytes(found).split(b"\n") + [b""], bytes(wanted).split(b"\n") + [b""]
    number = next(n for n in range(len(one) + len(other)) if one[n : n + 1] != other[n : n + 1])
    found, wanted = (b"".join(it[number : number + 1]).decode(errors="replace") for it in (one, other))
    return f"line {number + 1} is {found!r}, wanted {wanted!r}"
