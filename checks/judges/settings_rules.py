"""What `gateway check` has to say of a settings file, by the tables of docs/SETTINGS.md, apart from the gateway."""
import math
import re
import tomllib
from collections.abc import Iterator
from typing import Any

from random_steps import SHOWN

LARGEST_FILE = 16_777_216
ROWS, OUTSTATIONS = 20_000, 32

RULE_NAME = r"(?:[A-Za-z]{3,15}|<[A-Za-z0-9+-]{3,15}>)"
CLOCK = r"(?::[0-5]\d(?::[0-5]\d)?)?"
RULE_OFFSET = rf"[+-]?(?:2[0-4]|[01]?\d){CLOCK}"
RULE_DAY = r"(?:J(?:[1-9]\d?|[12]\d\d|3[0-5]\d|36[0-5])|M(?:1[0-2]|0?[1-9])\.[1-5]\.[0-6]|\d\d?|[0-2]\d\d|3[0-5]\d|36[0-5])"
RULE_MOMENT = rf"{RULE_DAY}(?:/[+-]?(?:0?\d?\d|1[0-5]\d|16[0-7]){CLOCK})?"
RULE = re.compile(rf"{RULE_NAME}{RULE_OFFSET}(?:{RULE_NAME}(?:{RULE_OFFSET})?,{RULE_MOMENT},{RULE_MOMENT})?", re.ASCII)


def is_rule(text: str) -> bool:
    """It is a rule of POSIX's TZ variable, with its days (RFC 9636, 3.3.2)."""
    return RULE.fullmatch(text) is not None


# What may stand at a key: a number from .. to, or up to or below that of another key; a flag; a text; a word; and the
# position of an outstation. And what is meant where the key is left out, unless it is required.
REQUIRED = object()
STATION = {
    "common_address": ((1, 65_534), REQUIRED),
    "master_address": ((0, 65_519), 1024),
    "offset_minutes": ((-840, 840), 0),
    "rule": (is_rule, None),
    "k": ((1, 32_767), 12),
    "w": ((1, "k", 0), 8),
    "t1_ms": ((1, 255_000), 15_000),
    "t2_ms": ((1, "t1_ms", -1), 10_000),
    "t3_ms": ((1, 255_000), 20_000),
    "queue": ((1, 65_536), 1000),
    "select_ms": ((1, 600_000), 10_000),
    "recorder": ((1, 65_536), 1024),
    "listen": (str, "127.0.0.1:2404"),
}
OUTSTATION = {
    "address": ((0, 65_519), REQUIRED),
    "connect": (str, "127.0.0.1:20000"),
    "poll_ms": ((1, 86_400_000), 2000),
    "integrity_ms": ((0, 86_400_000), 3_600_000),
    "response_ms": ((1, 600_000), 5000),
    "unsolicited": (bool, False),
    "lan_time": (bool, False),
    "common_address": ((1, 65_534), None),
}
POINT = {
    "outstation": ("position", REQUIRED),
    "kind": (list(SHOWN), REQUIRED),
    "index": ((0, 65_535), REQUIRED),
    "address": ((1, 16_777_215), REQUIRED),
    "show": (["single", "double", "scaled", "word", "total"], None),
    "num": ((1, 32_767), 1),
    "den": ((1, 32_767), 1),
}
CONTROL = {
    "outstation": ("position", REQUIRED),
    "show": (["single", "double", "setpoint"], REQUIRED),
    "index": ((0, 65_535), REQUIRED),
    "address": ((1, 16_777_215), REQUIRED),
    "select": (bool, False),
    "mode": (["direct", "sbo"], "direct"),
    "rest": (["latch", "short"], "latch"),
    "short_ms": ((1, 3_600_000), 500),
    "long_ms": ((1, 3_600_000), 2000),
    "num": ((1, 32_767), 1),
    "den": ((1, 32_767), 1),
}
KEYS = {"station": STATION, "outstation": OUTSTATION, "point": POINT, "control": CONTROL}


class Refusal(Exception):
    """Settings are refused by this line."""


def fault_of_number(allowed: tuple[Any, ...], value: object, table: dict[str, Any]) -> str | None:
    if type(value) is not int:
        return "3 WrongType"
    first, last = allowed[:2]
    last = last if isinstance(last, int) else table[last] + allowed[2]
    return None if first <= value <= last else "4 OutOfRange"


def fault_of_value(allowed: object, value: object, table: dict[str, Any], outstations: int) -> str | None:
    """What is wrong with a value, if anything; `table` has those of the keys before it."""
    if isinstance(allowed, tuple):
        return fault_of_number(allowed, value, table)
    if allowed == "position":
        return fault_of_number((0, outstations - 1), value, table)
    wanted = str if isinstance(allowed, list) or allowed is is_rule else allowed
    if type(value) is not wanted:
        return "3 WrongType"
    if allowed is is_rule:
        return None if is_rule(value) else "4 OutOfRange"
    return "4 OutOfRange" if isinstance(allowed, list) and value not in allowed else None


def mismatch_of(section: str, table: dict[str, Any]) -> str | None:
    """The key that doesn't fit another one, if there is one; what a key that is left out means isn't in the table."""
    if section == "point":
        allowed = SHOWN[table["kind"]]
        if "show" in table and table["show"] not in allowed:
            return "show"
        unfit = () if table.get("show", allowed[0]) == "scaled" else ("num", "den")
    elif section == "control":
        unfit = ("rest", "short_ms", "long_ms") if table["show"] == "setpoint" else ("num", "den")
    else:
        unfit = ()
    return next((key for key in unfit if key in table), None)


def judge_table(section: str, position: int, table: dict[str, Any], outstations: int) -> None:
    keys, place = KEYS[section], f"{section} {position}"
    unknown = sorted((it.encode() for it in table if it not in keys))
    if unknown:
        raise Refusal(f"5 UnknownKey {place} {unknown[0].decode()}")
    values = {}
    for key, (allowed, default) in keys.items():
        values[key] = table.get(key, default)
        if values[key] is REQUIRED:
            raise Refusal(f"2 Missing {place} {key}")
        is_by_others = default is None and key not in table
        fault = None if is_by_others else fault_of_value(allowed, values[key], values, outstations)
        if fault:
            raise Refusal(f"{fault} {place} {key}")
    unfit = mismatch_of(section, table)
    if unfit:
        raise Refusal(f"8 KindMismatch {place} {unfit}")


def judge_section(top: dict[str, Any], section: str, most: int, outstations: int) -> list[dict[str, Any]]:
    """The entries of a section."""
    entries = top.get(section, [])
    if not isinstance(entries, list) or not all(isinstance(it, dict) for it in entries):
        raise Refusal(f"3 WrongType top 0 {section}")
    if len(entries) > most:
        raise Refusal(f"4 OutOfRange {section} 0 count")
    for position, table in enumerate(entries):
        judge_table(section, position, table, outstations)
    return entries


def judge_doubles(points: list[dict[str, Any]], controls: list[dict[str, Any]], common: list[int]) -> None:
    """No two points have one source, and no two points or controls one address under one common address."""
    sources = set()
    for position, point in enumerate(points):
        source = point["outstation"], point["kind"], point["index"]
        if source in sources:
            raise Refusal(f"6 DoubleSource point {position} index")
        sources.add(source)
    addresses = set()
    for section, entries in (("point", points), ("control", controls)):
        for position, entry in enumerate(entries):
            pair = common[entry["outstation"]], entry["address"]
            if pair in addresses:
                raise Refusal(f"7 DoubleAddress {section} {position} address")
            addresses.add(pair)


def listing(points: list[dict[str, Any]], controls: list[dict[str, Any]], common: list[int]) -> Iterator[str]:
    """What the settings mean, line by line, where the outstations have these common addresses."""
    for it in points:
        show = it.get("show", SHOWN[it["kind"]][0])
        addresses = f"{common[it['outstation']]} {it['address']}"
        yield f"point {addresses} {show} {it['outstation']} {it['kind']} {it['index']}"
    for it in controls:
        addresses = f"{common[it['outstation']]} {it['address']}"
        yield f"control {addresses} {it['show']} {it['outstation']} {it['index']} {it.get('mode', 'direct')}"
    yield f"rows {len(points)} {len(controls)}"


def judge_top(top: dict[str, Any]) -> list[str]:
    unknown = sorted(it.encode() for it in top if it not in KEYS)
    if unknown:
        raise Refusal(f"5 UnknownKey top 0 {unknown[0].decode()}")
    if "station" not in top:
        raise Refusal("2 Missing top 0 station")
    if not isinstance(top["station"], dict):
        raise Refusal("3 WrongType top 0 station")
    judge_table("station", 0, top["station"], 0)
    outstations = judge_section(top, "outstation", OUTSTATIONS, 0)
    count = len(outstations)
    common = [it.get("common_address", top["station"]["common_address"]) for it in outstations]
    points = judge_section(top, "point", ROWS, count)
    controls = judge_section(top, "control", ROWS - len(points), count)
    judge_doubles(points, controls, common)
    return list(listing(points, controls, common))


def has_large_number(value: object) -> bool:
    """Whether a number of more than 64 bits stands anywhere, which isn't TOML to most."""
    if isinstance(value, dict):
        return any(map(has_large_number, value.values()))
    if isinstance(value, list):
        return any(map(has_large_number, value))
    return isinstance(value, int) and not -(2**63) <= value < 2**63


def float_of(text: str) -> float:
    """A float, which isn't TOML to most either where it is beyond 64 bits (IEEE 754)."""
    number = float(text)
    if math.isinf(number) and not text.endswith("inf"):
        raise ValueError(f"{text} is out of range")
    return number


def answer_to_settings(octets: bytes) -> list[str]:
    """What `gateway check` writes of a file: `refused ..`, or the listing."""
    if len(octets) > LARGEST_FILE:
        return ["refused file"]
    try:
        top = tomllib.loads(octets.decode().removeprefix("\N{BOM}"), parse_float=float_of)
    except ValueError:
        return ["refused 1 Toml"]
    if has_large_number(top):
        return ["refused 1 Toml"]
    try:
        return judge_top(top)
    except Refusal as why:
        return [f"refused {why}"]
