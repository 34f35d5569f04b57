"""A site that examples/simulate.py plays: the settings file that names its outstations, and what happens in them."""
import heapq
import itertools
import random
import re
import time
import tomllib
from functools import partial
from typing import NamedTuple

from dnp3_outstation import KINDS, NOT_SUPPORTED, ROOM, SUCCESS, Outstation, Point, counted, tell
from dnp3_server import TICK, Server
from protocols import STATES

# How often points of a kind move, beside others; outputs move by commands alone.
WEIGHTS = {"binary": 1, "double": 1, "output": 0, "counter": 5, "analog": 20}
# Seconds that a switch with two contacts takes from one to the other.
TRAVEL = 0.3
# What follows a control of a kind: the state of the output, and a switch.
SWITCHES = {"single": ("binary", "double"), "double": ("double", "binary")}
# How many controls are listed at the start.
LISTED = 20


class Refused(Exception):
    """Settings, a script or a command that can't be played; the text says why."""


# The settings file.

# A line of TOML in the form that settings are written in: a table's name, a key with a plain value, a comment.
LINE = re.compile(r"""\s*(?:(?P<table>\[\[?)\s*(?P<name>[\w-]+)\s*(?P<end>\]\]?)
    |(?P<key>[\w-]+)\s*=\s*(?P<value>"[^"\\]*"|'[^']*'|true|false|[+-]?\d[\d_]*))?\s*(?:\#.*)?""", re.X)


class Table(NamedTuple):
    """A table of the file, the line of its name, and the lines of its keys."""

    keys: dict
    line: int
    lines: dict


def plain_value(text):
    if text[0] in "\"'":
        return text[1:-1]
    return text == "true" if text in ("true", "false") else int(text)


def read_lines(text):
    """The tables of a text by their names, or nothing where a line has another form."""
    tables, now = {}, Table({}, 0, {})
    for number, line in enumerate(text.splitlines()):
        found = LINE.fullmatch(line)
        if not found:
            return None
        if found["table"]:
            now = Table({}, number, {})
            tables.setdefault(found["name"], []).append(now)
        elif found["key"]:
            now.keys[found["key"]], now.lines[found["key"]] = plain_value(found["value"]), number
    return tables


def read_tables(text):
    """The same of any TOML text; where a line has another form the tables have no lines."""
    tables = read_lines(text)
    if tables is not None:
        return tables
    try:
        whole = tomllib.loads(text)
    except tomllib.TOMLDecodeError as why:
        raise Refused(f"this is no TOML: {why}") from None
    listed = {name: it if isinstance(it, list) else [it] for name, it in whole.items()}
    return {name: [Table(it, -1, {}) for it in found if isinstance(it, dict)] for name, found in listed.items()}


def with_places(text, tables, listen, places):
    """The text of the settings with other places; all else stays as it is."""
    edits = [(tables["station"][0], "listen", listen)]
    edits += [(table, "connect", place) for table, place in zip(tables.get("outstation", []), places)]
    lines = text.splitlines(keepends=True)
    for table, key, place in edits:
        if table.line < 0:
            raise Refused("its text isn't changed, since it isn't one `key = value` a line: set `listen` and `connect` by hand")
        if key in table.lines:
            at = table.lines[key]
            lines[at] = re.sub(r"""(=\s*)("[^"\\]*"|'[^']*')""", lambda it: f'{it[1]}"{place}"', lines[at], count=1)
        else:
            front = lines[table.line].rstrip("\r\n")
            ending = lines[table.line][len(front) :] or "\n"
            lines[table.line] = f'{front}{ending}{key} = "{place}"{ending}'
    return "".join(lines)


class Reader:
    """Takes the keys of a table that the simulator wants; the gateway's `check` judges the others."""

    def __init__(self, name, place, table):
        self.name, self.place, self.keys = name, place, table.keys

    def refuse(self, key, wanted):
        found = f", and is {self.keys[key]!r}" if key in self.keys else ""
        raise Refused(f"[[{self.name}]] {self.place}: `{key}` has to be {wanted}{found}")

    def number(self, key, low, high, default=None):
        value = self.keys.get(key, default)
        if type(value) is not int or not low <= value <= high:
            self.refuse(key, f"{low} to {high}")
        return value

    def one_of(self, key, words, default=None):
        value = self.keys.get(key, default)
        if value not in words:
            self.refuse(key, " or ".join(map(str, words)))
        return value


# What happens in an outstation.


class Walk:
    """A measured value that walks around a centre, and is reported where it has left its dead band."""

    def __init__(self, point, centre):
        self.point, self.centre, self.reported = point, centre, centre
        self.dead_band = max(1, abs(centre) // 100)
        point.value = centre

    def step(self, chance):
        drift = chance.gauss(0, 1.5 * self.dead_band) + (self.centre - self.point.value) * 0.1
        return self.point.value + round(drift)


class Plant:
    """What an outstation stands in: its points, what follows its outputs, and what moves by itself."""

    def __init__(self, number, points, controls, chance):
        self.number, self.chance, self.refusal = number, chance, SUCCESS
        self.points, self.walks, self.words = {}, {}, set()
        for reader in points:
            self.add(reader)
        self.moving = [it for it in self.points.values() if WEIGHTS[it.name]]
        self.weights = list(itertools.accumulate(WEIGHTS[it.name] for it in self.moving))
        self.still, self.later, self.turns, self.owed = set(), [], itertools.count(), 0.0
        self.followers, self.controls = {}, controls
        for group, index, show, _ in controls:
            self.followers.setdefault((group, index), self.followers_of(group, index, show))
        self.outstation = None

    def add(self, reader):
        name, index = reader.one_of("kind", tuple(KINDS)), reader.number("index", 0, 65535)
        if (name, index) in self.points:
            reader.refuse("index", f"of one point alone of outstation {self.number} and kind {name}")
        point = self.points[name, index] = Point(name, index)
        if name == "double":
            point.value = STATES.index("on")
        elif name == "counter":
            point.value = self.chance.randrange(1000)
        elif name == "analog" and reader.keys.get("show") == "word":
            self.words.add(point)
        elif name == "analog":
            # Control centres see 100 to 1000 of it at first, whatever its scale.
            num, den = (reader.number(key, 1, 32767, 1) for key in ("num", "den"))
            self.walks[point] = Walk(point, self.chance.randint(100, 1000) * den // num)

    def followers_of(self, group, index, show):
        """The points that follow an output: its state, and the point of its index, or else the outstation's only one. Where an
        outstation has states of outputs, the index of a single command tells nothing of its binary inputs."""
        if group == 41:
            return self.nearest(("analog",), ("analog",), index)
        by_index = SWITCHES[show]
        if any(name == "output" for name, _ in self.points):
            by_index = ("double",) if show == "double" else ()
        output = self.points.get(("output", index))
        return ([output] if output else []) + self.nearest(by_index, SWITCHES[show], index)

    def nearest(self, by_index, names, index):
        """The point of an index and the first of these kinds, or else the only point of these kinds."""
        for name in by_index:
            if (name, index) in self.points:
                return [self.points[name, index]]
        some = [point for (name, _), point in self.points.items() if name in names]
        return some if len(some) == 1 else []

    # Commands.

    def judge(self, command):
        """The status of a command."""
        return self.refusal if (command.group, command.index) in self.followers else NOT_SUPPORTED

    def obey(self, command):
        for point in self.followers[command.group, command.index]:
            self.still.add(point)
            self.follow(point, command)

    def follow(self, point, command):
        is_on = bool(command.value)
        if command.group == 41:
            self.put(point, command.value)
        elif point.name == "analog":
            # Raise and lower, as of a tap changer.
            self.put(point, point.value + (1 if is_on else -1))
        elif point.name == "output" and command.pulse:
            self.put(point, 1)
            self.plan(command.pulse / 1000, partial(self.put, point, 0))
        else:
            self.turn(point, is_on)

    def turn(self, point, is_on):
        """A switch changes; one with two contacts is between them for a while."""
        if point.name != "double":
            self.put(point, int(is_on))
            return
        state = STATES.index("on" if is_on else "off")
        if point.value != state:
            self.put(point, STATES.index("intermediate"))
            self.plan(TRAVEL, partial(self.put, point, state))

    def put(self, point, value):
        """A point has a value; what is new is an event."""
        if point in self.walks:
            self.walks[point].reported = value
        if value != point.value:
            self.outstation.change(point, value)

    def plan(self, seconds, action):
        heapq.heappush(self.later, (time.monotonic() + seconds, next(self.turns), action))

    # What moves by itself.

    def tick(self, now, count):
        """Does what is due, and moves so many points, a broken number of them on the average."""
        while self.later and self.later[0][0] <= now:
            heapq.heappop(self.later)[2]()
        self.owed += count
        whole, self.owed = divmod(self.owed, 1)
        self.move(int(whole))

    def move(self, count):
        if self.moving and count:
            for point in self.chance.choices(self.moving, cum_weights=self.weights, k=count):
                if point not in self.still:
                    self.move_one(point)

    def move_one(self, point):
        walk = self.walks.get(point)
        if walk:
            value = walk.step(self.chance)
            if abs(value - walk.reported) < walk.dead_band:
                point.value = value
            else:
                self.put(point, value)
        elif point in self.words:
            self.put(point, point.value ^ 1 << self.chance.randrange(8))
        elif point.name == "counter":
            self.put(point, (point.value + self.chance.randint(1, 5)) % 2**32)
        elif not self.is_travelling(point):
            self.turn(point, point.value != (STATES.index("on") if point.name == "double" else 1))

    @staticmethod
    def is_travelling(point):
        return point.name == "double" and STATES[point.value] == "intermediate"


class Site:
    """The outstations of a settings file, with what can be done to them."""

    def __init__(self, tables, first_port, is_verbose):
        chance = random.Random(1)
        rows = [Reader("outstation", place, it) for place, it in enumerate(tables.get("outstation", []))]
        points, controls = self.sorted_rows(tables, "point", len(rows)), self.sorted_rows(tables, "control", len(rows))
        self.plants, self.servers, self.places = [], [], []
        for number, row in enumerate(rows):
            plant = Plant(number, points[number], [self.control(it) for it in controls[number]], chance)
            says = partial(self.say, number, is_verbose)
            options = {"unsolicited": row.one_of("unsolicited", (False, True), False),
                       "asks_time": row.one_of("lan_time", (False, True), False), "say": says}
            address, own = row.number("address", 0, 65519), list(plant.points.values())
            plant.outstation = Outstation(address, own, plant.judge, plant.obey, **options)
            self.plants.append(plant)
            self.servers.append(Server(plant.outstation, first_port + number))
            self.places.append(row.keys.get("connect", "127.0.0.1:20000"))

    @staticmethod
    def say(number, is_verbose, text):
        """Polls come again and again, and are told only if asked for."""
        if is_verbose or not re.match("event poll|the master confirms|an unsolicited response is sent", text):
            tell(f"outstation {number}: {text}")

    @staticmethod
    def sorted_rows(tables, name, count):
        """The rows of points or controls, by their outstations."""
        found = [[] for _ in range(count)]
        for place, table in enumerate(tables.get(name, [])):
            row = Reader(name, place, table)
            if not count:
                row.refuse("outstation", "that of an [[outstation]], and there is none")
            found[row.number("outstation", 0, count - 1)].append(row)
        return found

    @staticmethod
    def control(row):
        """Group, index, kind and address of a control."""
        show = row.one_of("show", ("single", "double", "setpoint"))
        return 41 if show == "setpoint" else 12, row.number("index", 0, 65535), show, row.number("address", 1, 16777215)

    def tick(self, now, rate):
        """Moves what moves, by so many moves a second and outstation, and sends what is due."""
        for plant, server in zip(self.plants, self.servers):
            plant.tick(now, rate * TICK if server.has_begun else 0)
            server.tick(now)

    def introduce(self):
        """Tells where each outstation listens, and which points follow its controls."""
        for number, (plant, server) in enumerate(zip(self.plants, self.servers)):
            tell(f"outstation {number} (link address {plant.outstation.address}, for {self.places[number]}) listens on "
                 f"{server.place}: {counted(len(plant.points), 'point')}, {counted(len(plant.controls), 'control')}")
        listed = [(plant, *it) for plant in self.plants for it in plant.controls]
        if len(listed) > LISTED:
            alone = sum(not plant.followers[group, index] for plant, group, index, _, _ in listed)
            tell(f"of {counted(len(listed), 'control')} {alone} are followed by no point")
        for plant, group, index, _, address in listed if len(listed) <= LISTED else []:
            followers = " and ".join(f"{it.name} {it.index}" for it in plant.followers[group, index]) or "nothing"
            word = "setpoint" if group == 41 else "control"
            tell(f"outstation {plant.number} {word} {index} (object address {address}) is followed by {followers}")

    # What is done by a script or by hand. Each takes the number of an outstation, and some words.

    def lose(self, number):
        """the link fails: it is cut, and nobody can connect"""
        self.servers[number].close()

    def silent(self, number):
        """the connection stands, and nothing is answered"""
        self.plants[number].outstation.is_silent = True

    def back(self, number):
        """ends `lose` and `silent`"""
        self.plants[number].outstation.is_silent = False
        if not self.servers[number].is_open:
            self.servers[number].open()

    def restart(self, number):
        """it restarts (IIN1.7): its events are lost, and what the master enabled; the connection stands"""
        self.plants[number].outstation.restart()

    def overflow(self, number):
        """so much happens that its event buffer overflows (IIN2.3)"""
        outstation, points = self.plants[number].outstation, self.plants[number].points.values()
        # All of one class, for each class has a buffer of its own.
        some = [it for it in points if it.kind is next(iter(points)).kind]
        for point in itertools.islice(itertools.cycle(some), ROOM + 1):
            outstation.change(point, point.value)
        outstation.has_overflowed = True

    def local(self, number):
        """its switch is at local: IIN1.5 is set, and commands are refused with status 7"""
        self.plants[number].outstation.is_local = True

    def remote(self, number):
        """ends `local`"""
        self.plants[number].outstation.is_local = False

    def clock(self, number):
        """its clock is lost, and it asks for the time (IIN1.4)"""
        self.plants[number].outstation.lose_clock()

    def status(self, number, code):
        """commands are refused with this status; 0 ends it"""
        self.plants[number].refusal = code

    def set(self, number, point, value):
        """a point has this value from now on: on, off, a state of a double point, a number"""
        plant = self.plants[number]
        plant.still.add(point)
        plant.put(point, value)

    def flags(self, number, point, bits):
        """a point has these flags: online, restart, comm_lost, remote_forced, local_forced, or none"""
        self.plants[number].outstation.change(point, point.value, bits)

    def follow(self, number, output, point):
        """a point follows the output of `control` (group 12) or `setpoint` (group 41) of this index"""
        self.plants[number].followers[output] = [point]

    def tell_state(self):
        """Tells how each outstation is."""
        for number, (plant, server) in enumerate(zip(self.plants, self.servers)):
            outstation = plant.outstation
            waiting = sum(len(it) for it in outstation.events.values())
            link = f"a master from {server.taken.peer}" if server.taken else "no master" if server.is_open else "its link fails"
            states = ((outstation.is_silent, "silent"), (outstation.is_local, "local control"),
                      (outstation.has_restarted, "restarted"), (outstation.is_clock_unset, "its clock isn't set"),
                      (plant.refusal, f"refuses with status {plant.refusal}"))
            told = [text for holds, text in states if holds]
            tell(", ".join([f"outstation {number}: {link}", f"{counted(waiting, 'event')} waiting", *told]))
