"""What the scripts that build the program share: a line that moves, one builder at a time, and an end by a signal."""
import fcntl
import os
import shutil
import signal
import subprocess
import sys
from contextlib import contextmanager, suppress
from pathlib import Path

ROOT = Path(__file__).resolve().parent.parent
PROVED = ROOT / "crates/gw_program/out/gw_program"
UNPROVED = ROOT / "out/unproved/gateway"
# The status where there is no program.
NO_PROGRAM = 3


def tell(text):
    # A terminal may be gone.
    with suppress(OSError):
        print(f"gateway: {text}", file=sys.stderr, flush=True)


class Line:
    """A line on standard error: on a terminal it moves; elsewhere each text that is new is a line of its own."""

    def __init__(self):
        self.moves, self.shown = sys.stderr.isatty(), None

    def show(self, text, moving=""):
        """Shows a text, and behind it what changes each second, which is shown on a terminal alone."""
        if not self.moves and text != self.shown:
            tell(text)
        elif self.moves:
            width = shutil.get_terminal_size().columns - 1
            with suppress(OSError):
                print("\r\033[K" + f"gateway: {text}{moving}"[:width], end="", file=sys.stderr, flush=True)
        self.shown = text

    def clear(self):
        if self.moves and self.shown is not None:
            with suppress(OSError):
                print("\r\033[K", end="", file=sys.stderr, flush=True)
        self.shown = None


def is_fresh(program):
    """Whether a program stands that is of the sources as they are (tools/freshness.sh)."""
    asked = 'root=$1; . "$1/tools/freshness.sh"; is_fresh "$2"'
    return subprocess.run(["bash", "-c", asked, "bash", ROOT, program]).returncode == 0


def want_proved():
    """Ends the script where no proved program of the sources as they are stands."""
    if not is_fresh(PROVED):
        sys.exit(f"{sys.argv[0]}: no proved program of these sources stands: ./gateway --prove proves and builds it")


def path_without_hints():
    """The PATH of a build without proof, of which no check of names takes a processor (tools/without_hints/sh)."""
    return f"{ROOT}/tools/without_hints:{os.environ.get('PATH', os.defpath)}"


def toolchain():
    """What the toolchain calls itself."""
    asked = 'root=$1; . "$1/tools/freshness.sh"; toolchain'
    return subprocess.run(["bash", "-c", asked, "bash", ROOT], capture_output=True, text=True).stdout


class Ended(Exception):
    """A signal that asks for an end."""


def end_by(number, _):
    # One end is enough.
    for it in (signal.SIGINT, signal.SIGTERM, signal.SIGHUP):
        signal.signal(it, signal.SIG_IGN)
    raise Ended(number)


@contextmanager
def ending_by_signals():
    """Lets what is inside tidy up where a signal asks for an end, and then ends by that signal."""
    for number in (signal.SIGINT, signal.SIGTERM, signal.SIGHUP):
        signal.signal(number, end_by)
    try:
        yield
    except Ended as ended:
        [number] = ended.args
        signal.signal(number, signal.SIG_DFL)
        os.kill(os.getpid(), number)


@contextmanager
def started(words, **named):
    """A process in a group of its own, so that a terminal's Ctrl-C doesn't reach it; what is left of it is ended."""
    process = subprocess.Popen(words, stdin=subprocess.DEVNULL, start_new_session=True, **named)
    try:
        yield process
    finally:
        for number, seconds in ((signal.SIGTERM, 5), (signal.SIGKILL, None)):
            with suppress(ProcessLookupError, subprocess.TimeoutExpired):
                os.killpg(process.pid, number)
                process.wait(seconds)


@contextmanager
def alone(folder, what):
    """Waits until no other call does the same in this folder."""
    folder.mkdir(parents=True, exist_ok=True)
    with open(folder / "lock", "w") as lock:
        try:
            fcntl.flock(lock, fcntl.LOCK_EX | fcntl.LOCK_NB)
        except BlockingIOError:
            tell(f"another call {what}; waiting for it")
            fcntl.flock(lock, fcntl.LOCK_EX)
        yield


def install(built, program, begun):
    """Puts a program where it is looked for: whole or not at all, with the time at which its build began, so that what was
    edited meanwhile is newer, and with the name of the toolchain."""
    program.parent.mkdir(parents=True, exist_ok=True)
    new = Path(f"{program}.new")
    shutil.copyfile(built, new)
    new.chmod(0o755)
    os.utime(new, (begun, begun))
    new.replace(program)
    # Behind the program: where a crash comes between the two, it counts as one of the toolchain that was named before.
    Path(f"{program}.toolchain").write_text(toolchain())


def run_builder(build):
    """Runs what builds; a file system that lets it write or run nothing is told in a sentence."""
    try:
        with ending_by_signals():
            return build()
    except OSError as why:
        tell(f"the program can't be built in {ROOT}: {why.strerror or why}: {why.filename or ''}".rstrip(": "))
        return NO_PROGRAM
