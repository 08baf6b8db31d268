"""Where values stand in a JSON text."""
from __future__ import annotations

import json
import re
from typing import Iterable, Iterator, Union

STRING = r'"[^"\\]*(?:\\.[^"\\]*)*"'
TOKEN = re.compile(
    rf'(?P<name>{STRING})\s*:|(?P<value>{STRING}|[^\[\]{{}},:"\s]+)|(?P<open>[\[{{])|(?P<close>[\]}}])|(?P<comma>,)'
)
STEP = re.compile(r"\['((?:[^'\\]|\\.)*)'\]|\[([0-9]+)\]")

Step = Union[str, int]
ROOT: Step = 0


class Place:
    """Where a value stands: its first character, the one past its last, and the places of its children."""

    __slots__ = "start", "end", "children"

    def __init__(self, start: int, end: int, children: dict[Step, Place]) -> None:
        self.start = start
        self.end = end
        self.children = children

    def at(self, steps: Iterable[Step]) -> Place:
        """The place of what the steps lead to."""
        place = self
        for step in steps:
            place = place.children[step]
        return place


NO_CHILDREN: dict[Step, Place] = {}


def place_of(text: str) -> Place:
    """Where the value of a JSON text stands. Of members of one name the last one counts."""
    around = Place(0, len(text), {})
    frames, step = [around], ROOT
    for token in TOKEN.finditer(text):
        step = _take(token, frames, step)
    return around.children[ROOT]


def _take(token: re.Match[str], frames: list[Place], step: Step) -> Step:
    """Takes a token in the innermost of the values that are open, and gives the step to the child that comes next."""
    children = frames[-1].children
    if token.lastgroup == "name":
        name: str = json.loads(token["name"])
        return name
    if token.lastgroup == "comma":
        return len(children)
    if token.lastgroup == "value":
        children[step] = Place(token.start(), token.end(), NO_CHILDREN)
    elif token.lastgroup == "open":
        frames.append(Place(token.start(), token.end(), {}))
        children[step] = frames[-1]
        return 0
    else:
        frames.pop().end = token.end()
    return step


def steps_of(location: str) -> Iterator[Step]:
    """The names and indexes of a normalised path."""
    for step in STEP.finditer(location):
        if step[2] is None:
            yield json.loads('"' + step[1].replace("\\'", "'").replace('"', '\\"') + '"')
        else:
            yield int(step[2])
