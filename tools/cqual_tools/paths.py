"""What pictures of paths and walks show: which call and return are a pair, how deep a step stands, and which function a variable is of.

A group is an enter, then `sub K` or nothing, then a leave; the text of a report has no other sign that a call and a return are a pair.
"""

import colorsys
from typing import NamedTuple, Optional

from .reports import MOST_STEPS, Failure, Step, Variable
from .wording import part_of

# colours of pairs that are dark enough to be read on white; further ones are made
PALETTE = ["#0b5fa5", "#b3410a", "#1b7837", "#8e2c8e", "#a8123c", "#00707a", "#6b5500", "#4a3fc0"]
# how many open calls of a row are kept, the inner ones
MOST_OPEN = 12


class Group(NamedTuple):
    """A call and its return: `sub` is the number of the sub-path between them, None where nothing is."""

    enter: Step
    sub: Optional[int]
    leave: Step

    @property
    def key(self):
        return self.enter.number, self.sub, self.leave.number


class Row(NamedTuple):
    """A step in its order: `call` is the number of its pair, None where it has none; `depth` is how many calls are open round it, and
    `open` has the numbers of the inner ones of these, None for a call that is no pair's."""

    step: Step
    call: Optional[int]
    depth: int
    open: tuple


class Function(NamedTuple):
    """A function by its first declaration: its name and the place of that."""

    name: str
    place: tuple

    def __str__(self):
        return f"{self.name}@{self.place}"


def brightness(red, green, blue):
    """How bright a colour is seen, from 0 to 1 (the relative luminance of the Web's guidelines)."""
    linear = [part / 12.92 if part <= 0.03928 else ((part + 0.055) / 1.055) ** 2.4 for part in (red, green, blue)]
    return 0.2126 * linear[0] + 0.7152 * linear[1] + 0.0722 * linear[2]


def colour_of(call):
    """The colour of a pair, from 1. Each has a contrast to white of at least 4.5."""
    if call <= len(PALETTE):
        return PALETTE[call - 1]
    hue, light = call * 0.618034 % 1, 0.42 - 0.02 * (call % 5)
    while 1.05 / (brightness(*colorsys.hls_to_rgb(hue, light, 0.75)) + 0.05) < 4.6:
        light -= 0.01
    return "#" + "".join(f"{round(part * 255):02x}" for part in colorsys.hls_to_rgb(hue, light, 0.75))


def parts_of(items):
    """The steps of a list with its groups put together; the number of a sub-path stands alone only where the list is no path."""
    made, at = [], 0
    while at < len(items):
        item = items[at]
        if isinstance(item, Step) and item.kind == "enter":
            through = at + 1 < len(items) and isinstance(items[at + 1], int)
            back = at + 1 + through
            if back < len(items) and isinstance(items[back], Step) and items[back].kind == "leave":
                made.append(Group(item, items[at + 1] if through else None, items[back]))
                at = back + 1
                continue
        made.append(item)
        at += 1
    return made


class Traced:
    """A route with its groups: `main` has the parts of its path, `subs` those of its sub-paths by number."""

    def __init__(self, route):
        self.route = route
        self.main = parts_of(route.path)
        self.subs = {number: parts_of(items) for number, items in route.subs.items()}
        self.calls = {}
        self.number_calls()

    def bodies(self):
        """The lists of parts, that of the path first; each with the number of its sub-path."""
        return [(None, self.main), *self.subs.items()]

    def number_calls(self):
        """Numbers the pairs from 1, in the order in which the path comes to them."""
        waiting, seen = [iter(self.main)], set()
        left = [number for number in self.subs]
        while waiting or left:
            if not waiting:
                # (one that the path does not come to)
                number = left.pop(0)
                if number not in seen:
                    seen.add(number)
                    waiting.append(iter(self.subs[number]))
                continue
            part = next(waiting[-1], None)
            if part is None:
                waiting.pop()
                continue
            if isinstance(part, Group):
                self.calls.setdefault(part.key, len(self.calls) + 1)
            sub = part if isinstance(part, int) else part.sub if isinstance(part, Group) else None
            if sub in self.subs and sub not in seen:
                seen.add(sub)
                waiting.append(iter(self.subs[sub]))

    def call(self, group):
        return self.calls[group.key]

    def rows(self):
        """The steps in their order with sub-paths in their places, up to `MOST_STEPS`, and whether these are all."""
        # the calls that the path begins in, which it leaves later
        begun = sum(1 for part in self.main if isinstance(part, Step) and part.kind == "leave")
        made, calls = [], [None] * begun
        waiting = [(iter(self.main), None)]
        while waiting:
            if len(made) >= MOST_STEPS:
                return made, False
            part = next(waiting[-1][0], None)
            if part is None:
                group = waiting.pop()[1]
                if isinstance(group, Group):
                    calls.pop()
                    made.append(row_of(group.leave, self.call(group), calls))
            elif isinstance(part, Group):
                made.append(row_of(part.enter, self.call(part), calls))
                calls.append(self.call(part))
                waiting.append((iter(self.subs.get(part.sub, [])), part))
            elif isinstance(part, int):
                waiting.append((iter(self.subs[part]), None))
            else:
                if part.kind == "leave" and calls:
                    calls.pop()
                made.append(row_of(part, None, calls))
                if part.kind == "enter":
                    calls.append(None)
        return made, True


def row_of(step, call, calls):
    return Row(step, call, len(calls), tuple(calls[-MOST_OPEN:]))


def function_of(variable):
    """The function that is declared where the variable is."""
    return Function(variable.name, variable.place)


def ends_of(part):
    """The variables of a part that are of the function in which it stands: of a group those of the call."""
    first, last = (part.enter, part.leave) if isinstance(part, Group) else (part, part)
    return [one for one in (first.source, last.target) if one is not None]


class Owners:
    """Which function a variable is of, as far as the routes of a text tell it.

    Certain are the variables of a function's own declaration, into which an enter leads and out of which a leave does, and those of the
    sub-paths of its calls. Behind an enter without a return a path stays in the function, and before a return without a call it was in
    it, up to a variable that cannot be of it: one of another function, or one that stands in another file, or before it, as objects at
    file scope do. That is no more than likely: an object behind the first declaration of the function is not told from one of its own.
    Where two functions are told of one variable, none is. Two declarations with a flow between them are of one function.
    """

    def __init__(self, traces):
        self.functions, self.inner, self.homes = {}, {}, {}
        self.claims = {}
        for learn in (self.learn, self.join):
            for trace in traces:
                for _, parts in trace.bodies():
                    for part in parts:
                        learn(part)
        for trace in traces:
            self.look_inside(trace)
        for trace in traces:
            for entered, variables, left in segments_of(trace.main):
                self.look_along(entered and self.own(entered), variables)
                self.look_along(left and self.own(left), variables[::-1])

    def learn(self, part):
        """The functions of calls, with the places where a variable of each is known to stand."""
        for step in (part.enter, part.leave) if isinstance(part, Group) else (part,):
            if isinstance(step, Step) and step.kind in ("enter", "leave"):
                function = function_of(step.target if step.kind == "enter" else step.source)
                self.functions.setdefault(function, function)
                self.stands(function, function.place)

    def stands(self, function, place):
        """A variable of the function stands at the place: of each file the first such place counts."""
        first = self.homes.setdefault(function, {})
        first[place.file] = min(first.get(place.file, place), place)

    def join(self, part):
        """Two declarations of one function, of which the one that was told first names it."""
        if isinstance(part, Step) and part.kind == "flow":
            first, second = self.own(part.source), self.own(part.target)
            if first is not None and second is not None and first != second:
                first, second = sorted((first, second), key=list(self.functions).index)
                for one, known in self.functions.items():
                    if known == second:
                        self.functions[one] = first
                for place in self.homes.pop(second).values():
                    self.stands(first, place)

    def declarations(self, function):
        """The declarations of a function that were told of, the one that names it first."""
        return [function] + [one for one, known in self.functions.items() if known == function and one != function]

    def look_inside(self, trace):
        """What is in sub-paths, and the parameters that calls lead into."""
        groups = [part for _, parts in trace.bodies() for part in parts if isinstance(part, Group)]
        callers = {group.sub: group for group in groups if group.sub is not None}
        for number, parts in trace.bodies():
            function = self.own(callers[number].enter.target) if number in callers else None
            for part in parts:
                if isinstance(part, int):
                    continue
                for variable in ends_of(part) if function is not None else ():
                    self.inner.setdefault(variable, function)
                    self.stands(function, variable.place)
                if isinstance(part, Step) and part.kind == "flow" and self.own(part.source) and is_argument(part.source):
                    self.stands(self.own(part.source), part.target.place)

    def own(self, variable):
        """The function whose declaration has the variable, or None."""
        return self.functions.get(function_of(variable))

    def certain(self, variable):
        return self.own(variable) or self.inner.get(variable)

    def may_hold(self, function, variable):
        """Whether the variable can be of the function."""
        known = self.certain(variable)
        if known is not None:
            return known == function
        first = self.homes[function].get(variable.place.file)
        return first is not None and first <= variable.place

    def look_along(self, function, variables):
        """The variables that follow on one that is the function's, up to the first that cannot be."""
        for variable in variables if function is not None else ():
            if not self.may_hold(function, variable):
                break
            self.claims.setdefault(variable, set()).add(function)

    def of(self, variable):
        """The function, or None where none is told."""
        claims = self.claims.get(variable, ())
        return self.certain(variable) or (next(iter(claims)) if len(claims) == 1 else None)


def is_argument(variable):
    return part_of(variable) not in (None, "res", "etc")


def segments_of(parts):
    """The parts between calls and returns without pair: what the path entered before, the variables, and what it leaves behind them."""
    entered, variables = None, []
    for part in parts:
        if isinstance(part, int):
            continue
        if isinstance(part, Step) and part.kind in ("enter", "leave"):
            variables.append(part.source)
            yield entered, variables, part.source if part.kind == "leave" else None
            entered = part.target if part.kind == "enter" else None
            variables = [part.target]
        else:
            variables += ends_of(part)
    yield entered, variables, None


def title_of(route):
    """What a route is, in lines."""
    if isinstance(route, Failure):
        return [f"error {route.element} exceeds {route.bound} at {route.place}"]
    return [f"at {route.at} lattice {route.lattice}", f"{route.way} {route.number}"]


def asked_of(route) -> Optional[Variable]:
    """The variable that a walk was asked of."""
    return None if isinstance(route, Failure) else route.at


def shown(latin):
    """A text as it is shown: what is no UTF-8 or cannot be printed is written as `\\xNN`, so that nothing hides what stands there."""
    text = latin.encode("latin-1", "backslashreplace").decode("utf-8", "backslashreplace")
    return "".join(one if one.isprintable() else f"\\x{ord(one):02x}" for one in text)
