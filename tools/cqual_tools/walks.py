"""Reads the answers of `cqual --who NAME`: the walks from each constant to a position of the name, and from there to each bound."""

import re
from typing import NamedTuple

from .reports import VARIABLE, NoReport, Route, variable_of, whole

AT = re.compile("at " + VARIABLE + r" lattice (\d+)\Z", re.S)
HEAD = re.compile(r"(from|to) (\d+)\Z")


class Walk(Route):
    """A walk `from` or `to` the constraint of a number; `at` is the position of the name that was asked for, `lattice` counts from 1."""

    def __init__(self, at, lattice, way, number):
        super().__init__()
        self.at, self.lattice, self.way, self.number = at, lattice, way, number


class Answer(NamedTuple):
    """What cqual answered: `name` is None, or the name that no declaration has."""

    walks: list
    name: str = None


def walks_of(lines):
    """The walks of the lines behind the first."""
    made, at, walks_there = [], None, 1
    for line in lines:
        position, head = AT.match(line), HEAD.match(line)
        if position and walks_there:
            at, walks_there = (variable_of(position.groups()[:5]), int(position[6])), 0
        elif head and at is not None:
            made.append(Walk(*at, head[1], int(head[2])))
            walks_there += 1
        elif walks_there and made:
            made[-1].take(line)
        else:
            raise NoReport
    if not walks_there or not all(one.path for one in made):
        raise NoReport
    return whole(made) if made else []


def answer_of(text):
    """The answer that a text is, or None."""
    lines = text.split("\n")
    if lines[-1] == "":
        lines.pop()
    if len(lines) == 1 and lines[0].startswith("no name "):
        return Answer([], lines[0][len("no name ") :])
    if lines[:1] != ["who"]:
        return None
    try:
        return Answer(walks_of(lines[1:]))
    except NoReport:
        return None
