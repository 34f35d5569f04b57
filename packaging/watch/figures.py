"""The figures of a gateway, and those that alerts and a dashboard ask for."""
import json
import re
import socket
import urllib.request
from contextlib import contextmanager
from typing import NamedTuple

from plant import Centre, Plant, settings
from trying import Refused, until

# What Prometheus adds, and what an alert has by itself.
ADDED = {"job", "instance"}
# Labels whose values are the program's own words.
CHOSEN = {"indication", "cause"}
NAME = re.compile(r"\bgateway_[a-z_0-9]+")


class Figures(NamedTuple):
    """What /metrics has: names, the labels of each, and each value of a label."""

    names: set
    labels: dict
    values: dict


def read_figures(text):
    """The figures of what /metrics gives."""
    names, labels, values = set(re.findall(r"^# TYPE (\S+)", text, re.M)), {}, {}
    for name, inside in re.findall(r"^(gateway_\w+)(?:\{(.*)\})? \S+$", text, re.M):
        found = re.findall(r'(\w+)="((?:[^"\\]|\\.)*)"', inside)
        labels.setdefault(name, set()).update(label for label, _ in found)
        for label, value in found:
            values.setdefault(label, set()).add(value)
    return Figures(names, labels, values)


def free_place():
    with socket.socket() as free:
        free.bind(("127.0.0.1", 0))
        return f"127.0.0.1:{free.getsockname()[1]}"


def ask(place, path="/metrics"):
    with urllib.request.urlopen(f"http://{place}{path}", timeout=5) as answer:
        return answer.read().decode()


@contextmanager
def served(scene, program, places):
    """A gateway between outstations at these ports of this host and a control centre; gives where its status is."""
    listen, status = free_place(), free_place()
    ports = [int(it.rpartition(":")[2]) for it in places]
    plants = [Plant(None, ["127.0.0.1"], 5, port) for port in ports]
    file = scene.folder / "settings.toml"
    # Each plant is one outstation, with link address 1.
    file.write_text(re.sub(r"^address = \d\d?$", "address = 1", settings(listen, places), flags=re.M))
    # With what has figures that are absent where it isn't asked for.
    files = ["--record", scene.folder / "record", "--events", scene.folder / "events.csv"]
    gateway = scene.start(program, "run", file, "--status", status, "--values", *files, output=scene.folder / "log")
    centre = Centre(None, listen, len(places))
    if not until(15, lambda: centre.moments("interrogated")):
        raise Refused(f"the gateway doesn't serve:\n{(scene.folder / 'log').read_text()[-800:]}")
    yield status
    centre.is_over = True
    for plant in plants:
        plant.is_over = True
    scene.stop(gateway)


def unknown_names(figures, text):
    """The names of figures in a text that the program doesn't have."""
    return sorted(set(NAME.findall(text)) - figures.names)


def unknown_labels(figures, text):
    """The labels that a text asks for, and values of them, that none of its figures has."""
    known = ADDED | set().union(*figures.labels.values())
    asked = set(re.findall(r"\$labels\.(\w+)", text)) | set(re.findall(r"\{\{(\w+)\}\}", text))
    for group in re.findall(r"\b(?:by|on|ignoring|without|group_left) \(([^)]*)\)", text):
        asked |= set(re.findall(r"\w+", group))
    wrong = asked - known
    for label, value in re.findall(r'(?<=[{,])(\w+)=~?\\?"([^"\\]*)\\?"', text):
        if label not in known:
            wrong.add(label)
        elif label in CHOSEN:
            wrong |= {f'{label}="{it}"' for it in value.split("|") if it not in figures.values.get(label, ())}
    return sorted(wrong)


def expressions(dashboard):
    """The queries of a dashboard, with the title of their panel."""
    return [(panel["title"], target["expr"]) for panel in json.loads(dashboard)["panels"] for target in panel["targets"]]
