"""Plays a program in virtual time by seeds, and has judged what it writes (`checks/simulate`, `checks/places`).

A seed draws the numbers of a scenario and all that happens in it; numbers may be given. One seed is played twice, and has to write the
same. If a seed fails, the simplest numbers and the shortest time are looked for with which it still breaks the same rule, and the
command is told that plays it again.
"""
import argparse
import subprocess
import time
from collections import deque
from collections.abc import Callable, Iterator
from concurrent.futures import Future, ProcessPoolExecutor
from dataclasses import dataclass, field
from pathlib import Path

from judges.fault import Fault


@dataclass(frozen=True)
class Driver:
    """A program that plays, and its judge: of the lines of a play, of which the first are as many numbers of its scenario."""

    program: Path
    # The numbers of a scenario, and what is simplest for each of them.
    simplest: dict[str, int]
    judge: Callable[[list[str], int], None]
    # How many seconds of virtual time a seed is played, and how many seeds are if nothing is said: always the same, so that a change
    # of something else doesn't end by a new one.
    seconds: int
    count: int
    # How many seconds a play may take.
    limit: int = 300


@dataclass
class Play:
    """What is played: a seed, for how many seconds of virtual time, and the numbers that are given."""

    driver: Driver
    program: Path
    seed: int
    seconds: int
    forced: dict[str, int] = field(default_factory=dict)

    def words(self) -> list[str]:
        return [str(self.seed), str(self.seconds), *(f"{name}={number}" for name, number in self.forced.items())]

    def command(self) -> str:
        return " ".join([str(self.program), *self.words()])

    def lines(self) -> bytes:
        played = subprocess.run([self.program, *self.words()], capture_output=True, timeout=self.driver.limit)
        if played.returncode != 0:
            raise Fault("status", f"status {played.returncode}: {played.stderr.decode(errors='replace').strip()[-300:]}")
        return played.stdout

    def fault(self) -> Fault | None:
        """What is wrong, if anything is."""
        try:
            self.driver.judge(self.lines().decode().splitlines(), len(self.driver.simplest))
        except Fault as fault:
            return fault
        except subprocess.TimeoutExpired:
            return Fault("slow", f"it takes more than {self.driver.limit} s")
        return None

    def breaks(self, kind: str) -> bool:
        """Whether this rule is broken."""
        fault = self.fault()
        return fault is not None and fault.kind == kind

    def with_number(self, name: str, number: int) -> "Play":
        return Play(self.driver, self.program, self.seed, self.seconds, {**self.forced, name: number})

    def halved(self) -> "Play":
        return Play(self.driver, self.program, self.seed, self.seconds // 2, self.forced)


def shrunk(play: Play, kind: str) -> Play:
    """The same with simpler numbers and less time, as far as it still breaks this rule."""
    for name, simplest in play.driver.simplest.items():
        simpler = play.with_number(name, simplest)
        if name not in play.forced and simpler.breaks(kind):
            play = simpler
    while play.seconds > 1 and play.halved().breaks(kind):
        play = play.halved()
    return play


def tell(play: Play, fault: Fault) -> None:
    print(f"seed {play.seed}: {fault}")
    simple = shrunk(play, fault.kind)
    print(f"seed {play.seed}: play it again by {simple.command()}")
    print(f"seed {play.seed}: {simple.fault()}", flush=True)


def seeds(first: int, count: int, seconds: float | None) -> Iterator[int]:
    """So many seeds, or seeds until so many seconds have passed, if that is said."""
    end = time.monotonic() + (seconds or 0)
    seed = first
    while time.monotonic() < end if seconds is not None else seed - first < count:
        yield seed
        seed += 1


def read_words(driver: Driver, about: str | None) -> argparse.Namespace:
    parser = argparse.ArgumentParser(description=about, formatter_class=argparse.RawDescriptionHelpFormatter)
    parser.add_argument("--seconds", type=float, help="for how long seeds are played, instead of so many seeds")
    parser.add_argument("--seed", type=int, default=1, help="the first seed")
    parser.add_argument("--count", type=int, default=driver.count, help=f"how many seeds; {driver.count} if nothing is said")
    parser.add_argument("--play", type=int, default=driver.seconds, help="how many seconds of virtual time a seed is played")
    parser.add_argument("--program", type=Path, default=driver.program, help="the built program")
    parser.add_argument("--jobs", type=int, default=2, help="how many seeds are played at a time")
    parser.add_argument("numbers", nargs="*", metavar="NAME=NUMBER", help="numbers of the scenario")
    return parser.parse_args()


def played(asked: argparse.Namespace, plays: Iterator[Play]) -> Iterator[tuple[Play, Fault | None]]:
    """Plays, so many at a time, with what is wrong with each, in their order."""
    with ProcessPoolExecutor(asked.jobs) as pool:
        under_way: deque[tuple[Play, Future[Fault | None]]] = deque()
        for play in plays:
            under_way.append((play, pool.submit(play.fault)))
            if len(under_way) > asked.jobs:
                first, future = under_way.popleft()
                yield first, future.result()
        for first, future in under_way:
            yield first, future.result()


def play_all(driver: Driver, about: str | None) -> int:
    """Plays what the command line asks for; the status of the script."""
    asked = read_words(driver, about)
    forced = {name: int(number) for name, _, number in (it.partition("=") for it in asked.numbers)}
    given = seeds(asked.seed, asked.count, asked.seconds)
    passed, failed = 0, 0
    for play, fault in played(asked, (Play(driver, asked.program, seed, asked.play, forced) for seed in given)):
        if fault is None:
            passed += 1
        else:
            failed += 1
            tell(play, fault)
    twice = Play(driver, asked.program, asked.seed, asked.play, forced)
    if twice.lines() == twice.lines():
        passed += 1
    else:
        failed += 1
        print(f"seed {asked.seed} doesn't write the same twice")
    print(f"{passed} passed, {failed} failed")
    return 1 if failed else 0
