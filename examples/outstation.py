#!/usr/bin/env -S python3 -B
"""A DNP3 outstation (IEEE Std 1815-2012) to try the gateway with: a breaker that closes and opens.

Its points are those of examples/first.toml: binary input 5 is the breaker (1 is closed), analog input 0 the current in
amperes, counter 0 how often the breaker has moved. Binary output 3 closes and opens it, analog output 4 sets the
current of the closed breaker. Once a master has connected the breaker moves every five seconds, until the master
operates it; each move is an event of all three points, which is kept until the master confirms it. The outstation
listens on 127.0.0.1, for one master at a time, and prints what the master asks for; polls that find no event aren't
printed. Times are in UTC. Ctrl-C ends it. (simulate.py plays the outstations of any settings file.)
"""
import argparse
import asyncio
import sys
import time
from contextlib import suppress

from dnp3_outstation import NOT_SUPPORTED, SUCCESS, Outstation, Point, tell
from dnp3_server import TICK, Server, why_not

# The link address; seconds from a move to the next; the outputs, as group and index.
ADDRESS, REST = 1, 5
SWITCH, SETTING = (12, 3), (41, 4)


class Breaker:
    """The breaker: its three points, and what a command does to it."""

    def __init__(self):
        self.load, self.is_operated = 312, False
        self.position, self.current, self.moves = Point("binary", 5), Point("analog", 0), Point("counter", 0)
        self.outstation = Outstation(ADDRESS, [self.position, self.current, self.moves], self.judge, self.obey)

    @staticmethod
    def judge(command):
        """The status of a command."""
        return SUCCESS if (command.group, command.index) in (SWITCH, SETTING) else NOT_SUPPORTED

    def obey(self, command):
        self.is_operated = True
        if command.group == 12:
            self.move(command.value)
        else:
            self.load = command.value
            self.move(self.position.value)

    def move(self, is_closed):
        has_moved = bool(is_closed) != bool(self.position.value)
        if has_moved:
            tell(f"the breaker {'closes' if is_closed else 'opens'}")
        self.outstation.change(self.position, int(is_closed))
        self.outstation.change(self.current, self.load if is_closed else 0)
        self.outstation.change(self.moves, self.moves.value + has_moved)


async def serve(port, first):
    breaker = Breaker()
    server = Server(breaker.outstation, port)
    try:
        server.open()
    except OSError as why:
        sys.exit(f"outstation.py: {why_not(port, why)}")
    tell(f"outstation {ADDRESS} listens on {server.place}")
    next_move = None
    while True:
        await asyncio.sleep(TICK)
        now = time.monotonic()
        if server.has_begun and next_move is None:
            next_move = now + first
        if next_move is not None and now >= next_move and not breaker.is_operated:
            next_move += REST
            breaker.move(not breaker.position.value)
        server.tick(now)


def main():
    parser = argparse.ArgumentParser(description=__doc__, formatter_class=argparse.RawDescriptionHelpFormatter)
    parser.add_argument("port", nargs="?", type=int, default=20000, help="where it listens; 20000 by default")
    parser.add_argument("--first", type=float, default=REST, metavar="N",
                        help=f"seconds from the connection to the first move; {REST} by default")
    words = parser.parse_args()
    if words.port not in range(1, 65536):
        parser.error(f"{words.port} is no port: 1 to 65535")
    asyncio.run(serve(words.port, words.first))


if __name__ == "__main__":
    with suppress(KeyboardInterrupt):
        main()
