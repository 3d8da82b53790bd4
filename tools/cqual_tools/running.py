"""Finds the files and programs of a run, makes the text that cqual reads, and runs cqual on it."""

import os
import re
import shlex
import shutil
import subprocess

from .diagnosis import Sources
from .models import ModelError, replaced
from .options import Stop, question_of
from .texts import Text
from .version import INSTALLED, SHARE, TOP

PROGRAMS = os.path.join(TOP, "bin" if INSTALLED else "tools")
MODELS_LINE = re.compile(r"^[ \t]*(?:/?\*+[ \t]*)?models:((?:[ \t]+[\w.-]+\.h)+)[ \t]*(?:\*/)?[ \t]*$", re.M)


def found_file(kind, name):
    """The file that a name stands for: that of the working folder, or that of share/cqual."""
    if os.path.exists(name):
        return name
    there = os.path.join(SHARE, kind, name)
    if os.path.exists(there):
        return os.path.abspath(there)
    raise Stop(9, f"there is no file {name}, here or in share/cqual/{kind}")


def found_program():
    """The program cqual."""
    named = os.environ.get("CQUAL")
    if named:
        if shutil.which(named) is None:
            raise Stop(9, f"there is no program {named}, which $CQUAL names")
        return named
    beside, built = os.path.join(PROGRAMS, "cqual"), os.path.join(TOP, "crates", "cqual", "out", "cqual")
    for program in (beside, shutil.which("cqual"), built):
        if program and os.access(program, os.X_OK) and os.path.isfile(program):
            return program
    raise Stop(9, "there is no cqual: install it, or name it in $CQUAL")


def read_file(path):
    try:
        with open(path, "rb") as file:
            return file.read().decode("latin-1")
    except OSError as fault:
        raise Stop(9, f"cannot read {path}: {fault.strerror}") from fault


class Setting:
    """What is looked for: the lattice, the preludes and the models that the options name."""

    def __init__(self, options):
        self.options = options
        preludes = options.preludes or ([] if options.lattice else ["taint.h"])
        self.lattice = os.path.abspath(found_file("lattices", options.lattice or "taint.q"))
        self.prelude_parts = [(name, read_file(found_file("preludes", name))) for name in preludes]
        self.models = self.named_models() + [(name, os.path.abspath(found_file("models", name))) for name in options.models]
        self.included = [os.path.abspath(found_file("models", name)) for name in options.includes]
        self.attributes = os.path.abspath(found_file("models", "old-attributes.h"))

    def named_models(self):
        """The models that the preludes name."""
        names = []
        if not self.options.has("--no-models"):
            for _, text in self.prelude_parts:
                for found in MODELS_LINE.finditer(text):
                    names += [name for name in found[1].split() if name not in names + self.options.models]
        return [(name, os.path.abspath(found_file("models", name))) for name in names]

    @property
    def tool_files(self):
        """The names, as reports have them, of files that are not the user's program."""
        return {name for name, _ in self.prelude_parts} | {name for name, _ in self.models}

    @property
    def prelude_text(self):
        """All preludes, each behind a line that says whose lines follow: a report names it as it was named here."""
        return "".join(f'# 1 "{name}"\n{text}' for name, text in self.prelude_parts)

    def flags_with(self, flags):
        """The flags of the preprocessor, for a source with these flags of a compiler."""
        # it comes first, since a file that the flags include may ask for attributes
        made = ["-D__CQUAL__=1", "-include", self.attributes, *flags]
        for path in self.included:
            made += ["-include", path]
        # With fortification the headers put calls of __printf_chk and of compiler's builtins in place of printf and memcpy, with bodies
        # that cqual does not read. It comes last, since flags of distributions switch it on.
        if not self.options.has("--fortify"):
            made += ["-U_FORTIFY_SOURCE", "-D_FORTIFY_SOURCE=0"]
        # what the preprocessor warns of is said where the source is compiled; with -Werror it would end the run
        return [*made, "-w"]

    def words(self, room, more="", name="preludes.h"):
        """The first words of cqual: the program, that it reads wider C, the lattice, and the preludes, with more behind them, which are written
        into a folder."""
        made = [found_program(), "--wide", "--lattice", self.lattice]
        if self.prelude_parts or more:
            made += ["--prelude", write_file(os.path.join(room, name), self.prelude_text + more)]
        return made


def write_file(path, text):
    with open(path, "wb") as file:
        file.write(text.encode("latin-1"))
    return path


def status_of(ran):
    """The status of a program that ended, as a shell has it."""
    return ran.returncode if ran.returncode >= 0 else 128 - ran.returncode


def reason_of(status, program, paths):
    """Why there was no answer; the paths are those of files that were read."""
    if status == 4:
        for path in paths:
            try:
                with open(path, "rb") as file:
                    file.read(1)
            except OSError as fault:
                return f"cannot read {path}: {fault.strerror}"
        return "a file could not be read, but it can be now: try again"
    reasons = {
        3: f"{program} takes no such words: it may be of another version than this script",
        5: "the report could not be written to the end",
        6: "there was not enough memory",
    }
    return reasons.get(status, f"{program} ended with status {status}")


class Run:
    """One run of cqual-cc: the folder of what is made, the text for cqual, its words and its answer."""

    def __init__(self, options, room):
        self.options, self.room = options, room
        self.compiler = shlex.split(os.environ.get("CC", "")) or ["gcc"]
        self.setting = Setting(options)
        self.text, self.replaced = "", None
        self.status, self.printed = 0, ""

    def preprocess(self):
        """Makes the text that cqual reads."""
        words = [*self.compiler, "-E", *self.setting.flags_with(self.options.flags), self.options.source]
        try:
            ran = subprocess.run(words, stdout=subprocess.PIPE, check=False)
        except OSError as fault:
            raise Stop(9, f"cannot run {self.compiler[0]}: {fault.strerror}") from fault
        if ran.returncode:
            raise Stop(8, f"the preprocessor failed on {self.options.source}")
        try:
            self.replaced = replaced(self.options.source, ran.stdout.decode("latin-1"), self.setting.models, self.compiler)
        except ModelError as fault:
            raise Stop(8, str(fault)) from fault
        self.text = self.replaced.text

    def start(self, printing):
        """Runs cqual: it prints to the standard output, or what it prints is kept."""
        source = os.path.join(self.room, os.path.basename(self.options.source))
        words = self.setting.words(self.room)
        write_file(source, self.text)
        question = [word for asked in question_of(self.options) for word in asked]
        try:
            ran = subprocess.run([*words, *question, source], stdout=None if printing else subprocess.PIPE, check=False)
        except OSError as fault:
            raise Stop(9, f"cannot run {words[0]}: {fault.strerror}") from fault
        self.printed = (ran.stdout or b"").decode("latin-1")
        self.status = status_of(ran)
        if self.status not in (0, 1, 2):
            raise Stop(self.status, reason_of(self.status, words[0], filter(None, (self.setting.lattice, source, self.options.check, self.options.verify))))

    def sources(self):
        """Where places of the report are looked for."""
        text = Text(self.options.source, self.text)
        return Sources([text], prelude_of(self.setting), self.setting.tool_files, self.replaced.names)


def prelude_of(setting, more=""):
    return Text("preludes.h", setting.prelude_text + more, whole=True)
