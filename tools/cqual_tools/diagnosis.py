"""Errors and notes as gcc writes them: FILE:LINE:COLUMN: error: .., the line of the source, and a caret."""

import re
from typing import NamedTuple, Optional

from .refusals import sentence_of
from .reports import Place
from .wording import ARGUMENT, called, described, exceeded, name_of, part_of, sink_of

OWN = "cqual_"
# the place of no declaration
NOWHERE = Place("", 0, 0)
COLORS = {"error": "\033[1;31m", "note": "\033[1;36m", "place": "\033[1m", "caret": "\033[1;32m", "end": "\033[0m"}


class Spot(NamedTuple):
    """A place in a file as a user sees it: the column in the source, the line where it could be found, how long the token is."""

    place: Place
    line: Optional[str]
    length: int


class Message(NamedTuple):
    kind: str
    spot: Spot
    text: str


class Sources:
    """Finds places of the text that cqual read in the files that the user wrote."""

    def __init__(self, texts, prelude, tool_files, replaced_names):
        self.texts, self.prelude = texts, prelude
        self.tool_files, self.replaced_names = tool_files, replaced_names
        self.files = {}

    def text_with(self, place):
        """The text that has the line; of several, as with one of a header, the first."""
        line = (place.file, place.line)
        return next((text for text in (self.prelude, *self.texts) if line in text.lines), self.texts[0])

    def lines_of(self, file):
        """The lines of a file on disk; none where it cannot be read."""
        if file not in self.files:
            try:
                with open(file.encode("latin-1"), "rb") as opened:
                    self.files[file] = opened.read().decode("latin-1").split("\n")
            except OSError:
                self.files[file] = []
        return self.files[file]

    def spot(self, place, name=None, instead=""):
        """Where a place of the preprocessed text stands in the source: behind a macro its column is another one there.

        `instead` is a token to look for where the line has none that stands there.
        """
        text = self.text_with(place)
        token = text.token_at(place, name)
        lines = self.lines_of(place.file)
        line = lines[place.line - 1] if 0 < place.line <= len(lines) else None
        if line is None:
            return Spot(place, text.line_at(place, name), max(len(token), 1))
        if token and line.startswith(token, place.column - 1):
            return Spot(place, line, len(token))
        for wanted in [token, *self.replaced_names.get((place.file, place.line), []), instead]:
            column = column_of(wanted, line, place.column)
            if column:
                return Spot(place._replace(column=column), line, len(wanted))
        return Spot(place._replace(column=len(line) - len(line.lstrip()) + 1), line, 1)

    def described(self, variable, declared=None):
        """A variable in words; `declared` is the variable of the declaration whose parameters are named."""
        declared = declared or variable
        if variable.name.startswith(OWN) and not ARGUMENT.match(variable.name):
            names = self.replaced_names.get((variable.place.file, variable.place.line), [])
            real = variable.name[len(OWN) :]
            if real not in names and names:
                return f"what {names[0]} gives"
            return described(variable._replace(name=real))
        known = ()
        if part_of(declared) not in (None, "res", "etc"):
            known = self.text_with(declared.place).parameters_at(declared)
        return described(variable, known)


def column_of(token, line, near):
    """The column of a token in a line: the last one up to there, or the first; 0 where there is none."""
    if not token:
        return 0
    edge = r"(?<![\w$])%s(?![\w$])" if re.match(r"[\w$]", token) else "%s"
    columns = [found.start() + 1 for found in re.finditer(edge % re.escape(token), line)]
    before = [column for column in columns if column <= near]
    return before[-1] if before else (columns[0] if columns else 0)


class Explained:
    """An error with what is said of it: where it stands, its sentence, and a note for each step that a user can see."""

    def __init__(self, failure, sources):
        self.failure, self.sources = failure, sources
        self.steps = [step for step, _ in failure.steps()]
        last = self.steps[-1]
        self.bound = last if last.kind == "bound" else None
        place, name = self.error_place()
        self.spot = sources.spot(place, name)
        self.place = place
        self.text = exceeded(failure, self.what(), self.is_use())

    def is_tool(self, place):
        return place.file in self.sources.tool_files

    def error_place(self):
        """The call whose argument is wrong, where the bound is that of a function; else the bound."""
        before = self.steps[-2] if len(self.steps) > 1 else None
        if self.bound is not None and before is not None and (self.is_tool(self.bound.place) or before.kind == "enter"):
            for step in reversed(self.steps[:-1]):
                if not self.is_tool(step.place):
                    return step.place, step.source.name if step.kind == "enter" else None
        return self.failure.place, None

    def what(self):
        sink = sink_of(self.failure)
        return self.sources.described(sink) if sink is not None else "this"

    def is_use(self):
        """Whether the bound is that of a use, as of a write, and not that of a function's argument or of a word in the text."""
        place, sink = self.failure.place, sink_of(self.failure)
        if sink is not None and called(sink):
            return False
        return self.sources.text_with(place).token_at(place, self.failure.bound) != self.failure.bound

    def notes(self):
        """The notes of a path, each at a place of the user's."""
        made = []
        for at, step in enumerate(self.steps):
            if step.kind == "const":
                made += self.note_of_cause(at)
            elif self.is_tool(step.place):
                continue
            elif step.kind == "flow" and self.says_something(at):
                following = self.steps[at + 1] if at + 1 < len(self.steps) else None
                declared = following.target if following is not None and following.kind == "enter" else None
                known = declared or step.target._replace(place=NOWHERE)
                made.append(self.note(step.place, f"into {self.sources.described(step.target, known)}", step.target.name))
            elif step.kind == "leave" and not (at and self.steps[at - 1].kind == "const"):
                made.append(self.note(step.place, self.leaving(step), step.target.name))
        if self.bound is not None and not self.is_tool(self.bound.place) and self.bound.place != self.place and not self.is_use():
            made.append(self.note(self.bound.place, f"the limit {self.failure.bound} stands here"))
        return made

    def leaving(self, step):
        """What a return from a call is: through a function of a prelude, or out of one of the source."""
        name = name_of(step.target)
        name = name[len(OWN) :] if name.startswith(OWN) else name
        through = f"through {name}" if self.is_tool(step.source.place) else f"out of {name}"
        if part_of(step.target) == "res":
            return through
        return f"{through}, into {self.sources.described(step.target, step.source)}"

    def note(self, place, text, name=None, instead=""):
        return Message("note", self.sources.spot(place, name, instead), text)

    def note_of_cause(self, at):
        """Where the element comes from: at its word, or at the first call behind a word of a prelude."""
        step = self.steps[at]
        variable, declared, place, name = step.target, step.target, step.place, None
        if self.is_tool(place):
            later = next((one for one in self.steps[at + 1 :] if not self.is_tool(one.place)), None)
            if later is None:
                return []
            place = later.place
            if later.kind == "leave":
                name = later.target.name
                variable = later.target if variable.name.startswith(OWN) else variable
        return [self.note(place, f"{self.sources.described(variable, declared)} is {step.element}", name, variable.name)]

    def says_something(self, at):
        """Whether a flow is more than a step between two declarations of one thing, into a parameter, or into the call of the error."""
        step, following = self.steps[at], self.steps[at + 1] if at + 1 < len(self.steps) else None
        part = part_of(step.target)
        again = step.source.name == step.target.name and step.source.steps == step.target.steps and part_of(step.source) is not None
        back = following is not None and following.kind == "leave" and part not in (None, "res")
        bounded = following is not None and following.kind == "bound" and step.target.name.startswith(OWN)
        return not (again or back or bounded or self.is_own_parameter(at) or self.is_last_call(at))

    def is_own_parameter(self, at):
        """Whether a step goes from the argument of a function into the parameter of its definition."""
        step, before = self.steps[at], self.steps[at - 1] if at else None
        return before is not None and before.kind == "enter" and step.source == before.target and part_of(step.target) is None

    def is_last_call(self, at):
        """Whether behind the step nothing comes but the call of the error."""
        behind = self.steps[at + 1 :]
        return bool(behind) and behind[0].kind == "enter" and all(one.kind == "bound" or self.is_tool(one.place) for one in behind[1:])


class Writer:
    """Writes messages to a stream of bytes, with colours or without."""

    def __init__(self, out, coloured):
        self.out, self.coloured = out, coloured

    def colour(self, name, text):
        return COLORS[name] + text + COLORS["end"] if self.coloured else text

    def line(self, text):
        self.out.write(text.encode("latin-1", "replace") + b"\n")

    def message(self, message, in_full=True):
        spot = message.spot
        self.line(f"{self.colour('place', f'{spot.place}:')} {self.colour(message.kind, message.kind + ':')} {message.text}")
        if in_full and spot.line is not None:
            source = spot.line.rstrip("\r\n")
            at = min(spot.place.column - 1, len(source))
            blank = "".join("\t" if it == "\t" else " " for it in characters(source[:at]))
            mark = "^" + "~" * (len(characters(source[at : at + spot.length])) - 1)
            self.line(f"{spot.place.line:5} | {source}")
            self.line(f"      | {blank}{self.colour('caret', mark)}")


def characters(latin):
    """The characters of a text whose bytes were read as Latin-1."""
    return latin.encode("latin-1").decode("utf-8", "replace")


def refusal(report, sources):
    """What is said of a file that was refused."""
    place = report.place
    text = sources.text_with(place) if place is not None else None
    sentence = sentence_of(report.code, text, place)
    if place is None:
        return None, f"{report.file}: error: {sentence} [{report.code.split(' ')[0]}]"
    return Message("error", sources.spot(place), f"{sentence} [{report.code.split(' ')[0]}]"), ""

