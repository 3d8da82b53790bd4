"""Makes the text that cqual reads of a C file: preprocessed with its own flags, with models over its calls, and kept by checksum."""

import os
import re
import shutil
import subprocess
import tempfile
from typing import NamedTuple

from .builds import shown
from .calls import ENVIRONMENT
from .kept import key_of
from .models import ModelError, replaced
from .objects import sum_of_file

LARGEST = 16777216
MARKER = re.compile(r'^(#(?:line)? *\d+ +")((?:[^"\\\n]|\\.)*)(".*)$', re.M)


class Ready(NamedTuple):
    """A unit whose text is kept: its checksum and size, the calls that were replaced, and the functions with a plain body.

    Where there is none, `fault` is a line that says why.
    """

    unit: tuple
    sum: str = ""
    size: int = 0
    names: tuple = ()
    bodies: tuple = ()
    fault: str = ""


def latin(name):
    """A name of a file as it stands in texts and reports, which are bytes read as Latin-1."""
    return os.fsencode(name).decode("latin-1")


def named_from_here(text, directory):
    """The text with names of files in its line markers as they are from the working folder: that of the compile was another."""

    def name_in(found):
        name = found[2]
        if name.startswith("<"):
            return found[0]
        if "\\" not in name:
            path = os.path.normpath(os.path.join(directory, os.fsdecode(name.encode("latin-1"))))
            name = latin(shown(path)).replace("\\", "\\\\").replace('"', '\\"')
        return found[1] + name + found[3]

    return MARKER.sub(name_in, text)


def plain_bodies(text):
    """The functions with a body without `inline` that other files see."""
    tokens, made, internal, ends = text.tokens, [], set(), 0
    for body in text.bodies:
        first = body.first
        while first > ends and tokens[first - 1].text not in (";", "}"):
            first -= 1
        internal |= internal_names(tokens, ends, first)
        words = {token.text for token in tokens[first : body.first]}
        if "static" in words:
            internal.add(body.name)
        elif not words & {"inline", "__inline", "__inline__"}:
            made.append(body.name)
        ends = body.end
    internal |= internal_names(tokens, ends, len(tokens))
    return tuple(name for name in dict.fromkeys(made) if name not in internal)


def internal_names(tokens, begin, end):
    """The names of functions that are declared `static` in a piece of file scope."""
    made, is_static = set(), False
    for at in range(begin, end):
        word = tokens[at].text
        if word in (";", "}"):
            is_static = False
        elif word == "static":
            is_static = True
        elif word == "(" and is_static and at > begin and tokens[at - 1].kind == "name":
            made.add(tokens[at - 1].text)
    return made


def listed_files(rule):
    """The files that a rule of make names behind its colon."""
    text = rule.replace("\\\n", " ").partition(": ")[2]
    return [re.sub(r"\\(.)", r"\1", name).replace("$$", "$") for name in re.findall(r"(?:\\.|[^\s\\])+", text)]


class Maker:
    """Makes texts of units. It is handed to other processes."""

    def __init__(self, setting, kept):
        self.setting, self.kept = setting, kept
        models = [(name, sum_of_file(path)) for name, path in setting.models]
        self.key = key_of(2, models, [sum_of_file(path) for path in setting.included], setting.options.has("--fortify"))
        self.sums = {}

    def sum_of(self, path):
        if path not in self.sums:
            self.sums[path] = sum_of_file(path)
        return self.sums[path]

    def ready(self, unit):
        """The text of a unit: what is kept of it, where nothing that it was made of has changed."""
        compiler = unit.compiler
        if os.sep in compiler:
            compiler = os.path.join(unit.directory, compiler)
        program = shutil.which(compiler)
        if program is None:
            return Ready(unit, fault=f"there is no compiler {unit.compiler}")
        key = key_of(self.key, unit, os.getcwd(), self.sum_of(os.path.realpath(program)))
        kept = self.kept.read("commands", key)
        if kept and self.is_good(kept):
            names = tuple(((file, line), tuple(names)) for file, line, names in kept["names"])
            return Ready(unit, kept["text"], kept["size"], names, tuple(kept["bodies"]))
        return self.made(unit, program, key)

    def is_good(self, kept):
        try:
            is_there = sum_of_file(self.kept.path("texts", kept["text"])) == kept["text"]
            return is_there and all(self.sum_of(path) == sum_ for path, sum_ in kept["files"].items())
        except (KeyError, TypeError, AttributeError):
            return False

    def made(self, unit, program, key):
        raw, files, fault = preprocessed(unit, program, self.setting.flags_with(unit.flags))
        if fault:
            return Ready(unit, fault=fault)
        try:
            replacing = replaced(latin(unit.shown), named_from_here(raw, unit.directory), self.setting.models, [program])
        except ModelError as error:
            return Ready(unit, fault=str(error))
        sum_ = self.kept.write_text(replacing.text)
        names = tuple((place, tuple(names)) for place, names in replacing.names.items())
        made = Ready(unit, sum_, len(replacing.text), names, plain_bodies(replacing.read))
        self.kept.write("commands", key, {
            "text": sum_, "size": made.size, "bodies": made.bodies, "names": [[*place, names] for place, names in names],
            "files": {path: self.sum_of(path) for path in files},
        })
        return made


def environment_of(unit):
    """The environment of a compile, as far as a compiler looks at it."""
    return {**{name: value for name, value in os.environ.items() if name not in ENVIRONMENT}, **dict(unit.environment)}


def preprocessed(unit, program, flags):
    """What the preprocessor writes, which files it read, and a line where it fails."""
    if not os.path.isfile(unit.source):
        return "", [], "there is no such file"
    with tempfile.TemporaryDirectory(prefix="cqual-run-") as room:
        rule = os.path.join(room, "files")
        words = [program, "-E", *flags, "-MD", "-MF", rule, "-MT", "x", unit.source]
        try:
            ran = subprocess.run(
                words, cwd=unit.directory, env=environment_of(unit), stdout=subprocess.PIPE, stderr=subprocess.PIPE, check=False
            )
        except OSError as fault:
            return "", [], f"cannot run {unit.compiler}: {fault.strerror}"
        if ran.returncode:
            said = ran.stderr.decode("utf-8", "replace").splitlines()
            faults = [line for line in said if "error" in line] or said or [f"{unit.compiler} ended with status {ran.returncode}"]
            return "", [], f"the preprocessor failed: {faults[0]}"
        with open(rule, encoding="utf-8", errors="surrogateescape") as file:
            names = listed_files(file.read())
    if len(ran.stdout) > LARGEST:
        return "", [], f"it has {len(ran.stdout)} bytes behind the preprocessor: cqual takes {LARGEST}"
    return ran.stdout.decode("latin-1"), [os.path.join(unit.directory, name) for name in names], ""
