"""What a build made: which C files it compiled, with which flags, and which of them each program and library is linked of."""

import fnmatch
import json
import os
import shlex
from dataclasses import dataclass, field
from typing import NamedTuple

from .calls import archive_of, call_of, environment, expanded
from .options import Stop


class Unit(NamedTuple):
    """A C file as one compile reads it."""

    source: str
    directory: str
    compiler: str
    flags: tuple
    environment: tuple = ()

    @property
    def shown(self):
        return shown(self.source)

    @property
    def is_tried(self):
        """Whether this is what a `configure` or CMake compiled to see how compiling goes."""
        is_gone = not os.path.exists(self.source) or not os.path.isdir(self.directory)
        return is_gone or "CompilerIdC" in self.source.split(os.sep)


class Part(NamedTuple):
    """An object, or a member of an archive, that a link took."""

    path: str
    name: str
    sum: str


@dataclass
class Program:
    """A program or a library: its sources, and the objects in it of which no compile is known."""

    name: str
    units: list
    unknown: list = field(default_factory=list)


def shown(path):
    """A path as the user would name it: below the working folder by the way from there."""
    here = os.getcwd()
    return os.path.relpath(path, here) if path == here or path.startswith(here + os.sep) else path


def units_of(call, beside):
    """The units of a call, with what the compiler takes from its environment."""
    for source in call.sources:
        language = () if source.endswith((".c", ".i")) else ("-x", "c")
        yield Unit(call.path_of(source), call.directory, call.compiler, (*call.flags, *language), tuple(beside.items()))


class Build:
    """What the log of a build says. Objects are known by their checksums: a build may move them."""

    def __init__(self):
        self.units, self.links, self.libraries, self.faults = {}, {}, {}, []
        # what an object or a library was made of: units and parts; of a file of another language, neither
        self.makers = {}

    def take(self, entry):
        """Takes an entry of the log."""
        directory, words = entry["directory"], entry["words"]
        if "fault" in entry:
            self.faults.append(f"{shlex.join(words)}: {entry['fault']}")
            return
        archive = archive_of(directory, words)
        if archive and "sums" not in entry:
            self.libraries[archive] = [Part(archive, *member) for member in entry["members"][archive]]
            return
        call = call_of(directory, words)
        units = list(units_of(call, entry["environment"]))
        self.units.update(dict.fromkeys(units))
        if call.makes == "object":
            for unit, source in zip(units, call.sources):
                self.make(call.object_of(source), entry["sums"], ([unit], []))
            for source in call.others:
                self.make(call.object_of(source), entry["sums"], ([], []))
        else:
            self.take_link(call, units, entry)

    def take_link(self, call, units, entry):
        output = call.linked()
        parts = [Part(path, os.path.basename(path), sum_) for path, sum_ in entry["sums"].items() if path != output]
        parts += [Part(path, *member) for path, members in entry["members"].items() for member in members]
        # of shared libraries those of the build
        shared = [Part(path, os.path.basename(path), sum_) for path, sum_ in entry.get("shared", {}).items() if sum_ in self.makers]
        self.make(output, entry["sums"], (units, parts + shared))
        if call.is_library:
            self.libraries[output] = [Part(output, os.path.basename(output), entry["sums"].get(output, ""))]
        else:
            self.links[output] = (units, parts + shared)

    def make(self, path, sums, made_of):
        """Two files of one content are one: the path, else the name, says which is meant."""
        sum_ = sums.get(path)
        if sum_:
            for key in ((path, sum_), (os.path.basename(path), sum_), sum_):
                self.makers[key] = made_of

    def units_in(self, parts):
        """The units of these parts in order, and the paths of those of which no compile is known."""
        units, unknown, waiting = {}, {}, list(reversed(parts))
        seen = set()
        while waiting:
            part = waiting.pop()
            if part in seen:
                continue
            seen.add(part)
            keys = ((part.path, part.sum), (part.name, part.sum), part.sum)
            made_of = next((self.makers[key] for key in keys if key in self.makers), None)
            if made_of is None:
                inside = f"{shown(part.path)}({part.name})" if part.name != os.path.basename(part.path) else shown(part.path)
                unknown.setdefault(inside, part.path)
            else:
                units.update(dict.fromkeys(made_of[0]))
                waiting += reversed(made_of[1])
        here = os.getcwd() + os.sep
        return list(units), [name for name, path in unknown.items() if path.startswith(here)]


def read_log(path):
    """The build that a log tells of."""
    made = Build()
    with open(path, encoding="utf-8") as file:
        for line in file:
            try:
                made.take(json.loads(line))
            except (ValueError, KeyError, TypeError) as fault:
                raise Stop(9, f"{path} is no log of a build: remove it, and build from clean") from fault
    return made


def programs_of(build):
    """The programs of a build: one for each that is linked, for each library that no program holds whole, and for what is in neither."""
    made = []
    for output, (units, parts) in build.links.items():
        found, unknown = build.units_in(parts)
        add_program(made, shown(output), [*units, *found], unknown)
    for path, parts in build.libraries.items():
        units, unknown = build.units_in(parts)
        if not any({unit.source for unit in units} <= {unit.source for unit in one.units} for one in made):
            add_program(made, shown(path), units, unknown)
    inside = {unit.source for one in made for unit in one.units}
    add_program(made, "rest", [unit for unit in build.units if unit.source not in inside and not unit.is_tried], [])
    return made


def libraries_of(build):
    """The archives and shared libraries of a build, each as a program."""
    made = []
    for path, parts in build.libraries.items():
        units, unknown = build.units_in(parts)
        add_program(made, shown(path), units, unknown)
    return made


def add_program(made, name, units, unknown):
    """Adds a program. What has no C file, or only such as were tried, is none."""
    units = list(dict.fromkeys(units))
    if unknown or not all(unit.is_tried for unit in units):
        made.append(Program(name, units, unknown))


def commands_file(name):
    """The compile_commands.json that is meant."""
    places = [name] if name else [".", "build"]
    for place in places:
        path = os.path.join(place, "compile_commands.json") if os.path.isdir(place) else place
        if os.path.isfile(path):
            return path
    if name:
        raise Stop(9, f"there is no compile_commands.json {name}")
    raise Stop(9, "there is no compile_commands.json here or in build: name one, or log a build with --make CMD")


def read_commands(name):
    """All C files that a compile_commands.json tells of, as one program."""
    path = commands_file(name)
    try:
        with open(path, encoding="utf-8", errors="surrogateescape") as file:
            entries = json.load(file)
    except OSError as fault:
        raise Stop(9, f"cannot read {path}: {fault.strerror}") from fault
    except ValueError as fault:
        raise Stop(9, f"{path} is no JSON: {fault}") from fault
    if not isinstance(entries, list):
        raise Stop(9, f"{path} is no list of commands")
    units = {}
    for number, entry in enumerate(entries, 1):
        try:
            directory = os.path.join(os.path.dirname(os.path.abspath(path)), entry["directory"])
            words = entry["arguments"] if "arguments" in entry else shlex.split(entry["command"])
            call = call_of(os.path.normpath(directory), expanded(words, directory))
            units.update(dict.fromkeys(units_of(call, environment()) if call else ()))
        except (KeyError, TypeError, ValueError, AttributeError) as fault:
            raise Stop(9, f"{path}: command {number} has no directory and no words of a compiler") from fault
    if not units:
        raise Stop(9, f"{path} tells of no C file")
    return [Program("all", list(units))]


def wanted_units(program, options):
    """The units of a program that are not left out."""
    return [unit for unit in program.units if not any(fnmatch.fnmatchcase(unit.shown, glob) for glob in options.withouts)]


def chosen(programs, options):
    """The programs and the sources that are asked for."""
    made = []
    for one in programs:
        if not options.programs or any(fnmatch.fnmatchcase(one.name, glob) for glob in options.programs):
            units = wanted_units(one, options)
            if units or one.unknown:
                made.append(Program(one.name, units, one.unknown))
    if not made:
        names = ", ".join(one.name for one in programs) or "none"
        raise Stop(3, f"no program is left: there are {names}")
    return made
