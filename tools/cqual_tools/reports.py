"""Reads the reports of cqual: the errors, their paths with sub-paths in their places, and the variables in them."""

import re
from typing import NamedTuple, Optional

# how many steps of one error are taken, where sub-paths that are named again and again are many times as long as the report
MOST_STEPS = 10000

VARIABLE = r"(.+?)@(.+?):(\d+):(\d+)((?:\.\w+)*)"
PLACE = re.compile(r"(.*):(\d+):(\d+)\Z", re.S)
ERROR = re.compile(r"error (\S+) exceeds (\S+) at (.*)\Z", re.S)
STEP = re.compile(r"  (\d+) (.*?):(\d+):(\d+) (const|flow|enter|leave|bound) (.*)\Z", re.S)
FROM_TO = re.compile(VARIABLE + r" to " + VARIABLE + r"\Z", re.S)
CONST = re.compile(r"(\S+) in " + VARIABLE + r"\Z", re.S)
BOUND = re.compile(VARIABLE + r" by (\S+)\Z", re.S)
THROUGH = re.compile(r"  sub (\d+)\Z")
SUB = re.compile(r"sub (\d+)\Z")
MALFORMED = re.compile(r"malformed (.*): ([A-Z]\d.*)\Z", re.S)


class NoReport(Exception):
    """A text that is no report."""


class Place(NamedTuple):
    file: str
    line: int
    column: int

    def __str__(self):
        return f"{self.file}:{self.line}:{self.column}"


class Variable(NamedTuple):
    """A qualifier variable: the token and the place of its name, and the steps into its type, as ('in', 'res')."""

    name: str
    place: Place
    steps: tuple

    def __str__(self):
        return self.name + "@" + str(self.place) + "".join("." + step for step in self.steps)


class Step(NamedTuple):
    """A step of a path: `source` is None in a const, `target` in a bound; `element` is None but in these two."""

    number: int
    place: Place
    kind: str
    source: Optional[Variable]
    target: Optional[Variable]
    element: Optional[str]
    text: str


def place_of(text):
    """The place FILE:LINE:COLUMN."""
    found = PLACE.match(text)
    if not found:
        raise NoReport
    return Place(found[1], int(found[2]), int(found[3]))


def variable_of(groups):
    name, file, line, column, steps = groups
    return Variable(name, Place(file, int(line), int(column)), tuple(steps.split(".")[1:]))


def step_of(found):
    number, file, line, column, kind, text = found.groups()
    place = Place(file, int(line), int(column))
    if kind == "const":
        parts = CONST.match(text)
        if parts:
            return Step(int(number), place, kind, None, variable_of(parts.groups()[1:]), parts[1], text)
    elif kind == "bound":
        parts = BOUND.match(text)
        if parts:
            return Step(int(number), place, kind, variable_of(parts.groups()[:5]), None, parts[6], text)
    else:
        parts = FROM_TO.match(text)
        if parts:
            return Step(int(number), place, kind, variable_of(parts.groups()[:5]), variable_of(parts.groups()[5:]), None, text)
    raise NoReport


class Route:
    """A path with its sub-paths, from the lines that say so. A step of a list is a Step, or the number of a sub-path."""

    def __init__(self):
        self.subs, self.path, self.lines = {}, None, []
        self._into = None

    def take(self, line):
        """Takes the next line; one that is none of a path is no report."""
        sub, step, through = SUB.match(line), STEP.match(line), THROUGH.match(line)
        if sub:
            self._into = self.subs.setdefault(int(sub[1]), [])
        elif line == "path":
            self._into = self.path = []
        elif step and self._into is not None:
            self._into.append(step_of(step))
        elif through and self._into is not None:
            self._into.append(int(through[1]))
        else:
            raise NoReport
        self.lines.append(line)

    def steps(self):
        """The steps with sub-paths in their places, each with how many calls are open in it."""
        made, open_calls, turns = [], 0, 0
        waiting = [iter(self.path or [])]
        while waiting and len(made) < MOST_STEPS:
            step = next(waiting[-1], None)
            turns += 1
            if step is None:
                waiting.pop()
            elif isinstance(step, int):
                # (sub-paths that lead through themselves, or through nothing again and again, are none)
                if step not in self.subs or turns > 4 * MOST_STEPS:
                    raise NoReport
                waiting.append(iter(self.subs[step]))
            else:
                if step.kind == "leave":
                    open_calls = max(0, open_calls - 1)
                made.append((step, open_calls))
                if step.kind == "enter":
                    open_calls += 1
        return made


class Failure(Route):
    """An exceeded bound with its path, and the lines of the report that say so."""

    def __init__(self, element, bound, place, line):
        super().__init__()
        self.element, self.bound, self.place = element, bound, place
        self.lines.append(line)


def failures_of(lines):
    """The errors of a rejected report, from the lines behind its first."""
    made = []
    for line in lines:
        error = ERROR.match(line)
        if error and PLACE.match(error[3]):
            made.append(Failure(error[1], error[2], place_of(error[3]), line))
        elif made:
            made[-1].take(line)
        else:
            raise NoReport
    return whole(made)


def whole(routes):
    """Routes of which each has a path whose sub-paths are there."""
    if not routes or any(one.path is None for one in routes):
        raise NoReport
    for one in routes:
        one.steps()
    return routes


class Report(NamedTuple):
    """What cqual printed: `answer` is its first word, `failures` those of a rejected report, `place` and `code` of a malformed file."""

    answer: str
    first: str
    failures: list
    place: Optional[Place] = None
    file: str = ""
    code: str = ""


def report_of(text):
    """A report. An answer other than accepted, rejected and malformed is `other`; so is what only begins as a report."""
    lines = text.split("\n")
    if lines[-1] == "":
        lines.pop()
    first = lines[0] if lines else ""
    if first == "accepted":
        return Report("accepted", first, [])
    if first == "rejected":
        try:
            return Report("rejected", first, failures_of(lines[1:]))
        except NoReport:
            return Report("other", first, [])
    malformed = MALFORMED.match(first)
    if malformed:
        place = place_of(malformed[1]) if PLACE.match(malformed[1]) else None
        return Report("malformed", first, [], place, place.file if place else malformed[1], malformed[2])
    return Report("other", first, [])


def text_of(latin):
    """Unicode of a text that was read as Latin-1."""
    return latin.encode("latin-1", "replace").decode("utf-8", "replace")
