"""The signatures of the libraries of a build, and which programs may take them in place of the libraries' sources.

Signatures are those of sources alone, over what belongs to functions alone. So what no function uses is left out, and what the preludes say
of functions is one more source, without the declarations that a source cannot have: those with index words. Where a library's functions
mention one of these, it has no signatures here. It stands for its sources in no program that has a function which it mentions, since that is
part of no library.
"""

import os
import re
import subprocess
from dataclasses import dataclass, field

from .builds import Unit
from .kept import key_of
from .options import Stop
from .objects import sum_of, sum_of_file
from .running import reason_of, status_of, write_file
from .texts import ATTRIBUTES, TYPE_WORDS, Text
from .units import Ready, latin
from .unused import without_unused

INDEX_WORD = re.compile(r"\$_\d")
MOST_SOURCES = 256


@dataclass
class Library:
    """A library: what is ready of its units, and the libraries whose functions its own mention, itself among them.

    Its signatures are of all these together. `fault` says why it has none.
    """

    name: str
    readies: list
    group: list = field(default_factory=list)
    mentions: set = field(default_factory=set)
    text: str = ""
    fault: str = ""

    @property
    def bodies(self):
        return {name for ready in self.readies for name in ready.bodies}

    @property
    def sums(self):
        return {ready.sum for ready in self.readies}

    @property
    def all_readies(self):
        """The units of the group, each once."""
        return list({ready.sum: ready for one in self.group for ready in one.readies}.values())

    @property
    def prelude(self):
        """The signatures as a part of a prelude, with a name of their own in reports."""
        return f'# 1 "{latin(self.name)}.signatures"\n{self.text}'

    def count(self):
        return self.text.count("\n")


def declarations_of(tokens):
    """The declarations of a prelude: lists of tokens, each up to a semicolon that stands in no brackets."""
    made, depth = [[]], 0
    for token in tokens:
        made[-1].append(token)
        if token.text in ("(", "[", "{"):
            depth += 1
        elif token.text in (")", "]", "}"):
            depth -= 1
        elif token.text == ";" and depth == 0:
            made.append([])
    return [one for one in made if one]


def function_in(tokens):
    """The name of the function that is declared: one outside of brackets with `(` behind it. An empty text where there is none."""
    depth = 0
    for token, behind in zip(tokens, tokens[1:]):
        if token.text in ("(", "[", "{"):
            depth += 1
        elif token.text in (")", "]", "}"):
            depth -= 1
        elif token.kind == "name" and depth == 0 and behind.text == "(" and token.text not in ATTRIBUTES | TYPE_WORDS:
            return token.text
    return ""


def names_in(tokens):
    return {token.text for token in tokens if token.kind == "name" and not token.text.startswith("$")} - TYPE_WORDS - ATTRIBUTES


class PreludeWords:
    """What the preludes say, as a source, and the names that it cannot say it of."""

    def __init__(self, text):
        self.unsaid, self.functions, pieces, at = set(), set(), [], 0
        for tokens in declarations_of(Text("preludes.h", text, whole=True).tokens):
            name = function_in(tokens)
            words = [token.text for token in tokens if token.text.startswith("$")]
            if name:
                self.functions.add(name)
            if not words or name and not any(INDEX_WORD.match(word) for word in words):
                continue
            # of an object, and of what is declared in another way, all names are left out
            self.unsaid |= {name} if name else names_in(tokens)
            begin, end = tokens[0].start, tokens[-1].start + len(tokens[-1].text)
            pieces += [text[at:begin], re.sub(r"[^\n]", " ", text[begin:end])]
            at = end
        self.text = "".join(pieces) + text[at:]

    def fault(self, mentions, bodies):
        """Why there are no signatures of what mentions these names and has bodies of these functions; None where there are."""
        unsaid = sorted(mentions & self.unsaid - bodies)
        return f"{unsaid[0]} is mentioned, of which the preludes have index words or which is no function" if unsaid else None

    def own_lines(self, printed, bodies):
        """Signatures without those of functions that the preludes have, but for those with bodies here."""
        functions, lines = self.functions - bodies, printed.splitlines(keepends=True)
        return "".join(line for line in lines if function_in(Text("", line, whole=True).tokens) not in functions)


def signatures_of(program, lattice, paths):
    """The status of cqual, asked for the signatures of these files as one library, and what it prints."""
    try:
        ran = subprocess.run([program, "--wide", "--lattice", lattice, "--signatures", *paths], stdout=subprocess.PIPE, check=False)
    except OSError as fault:
        raise Stop(9, f"cannot run {program}: {fault.strerror}") from fault
    status = status_of(ran)
    if status not in (0, 1, 2):
        raise Stop(status, reason_of(status, program, [lattice, *paths]))
    return status, ran.stdout.decode("latin-1")


def mentioned(text):
    """The names in bodies of functions; in those of a system's headers only where such a function is mentioned itself."""
    made, waiting = set(), []
    for body in text.bodies:
        names = {token.text for token in text.tokens[body.first : body.end] if token.kind == "name"}
        if text.is_system_at(text.tokens[body.first].start):
            waiting.append((body.name, names))
        else:
            made |= names
    grows = True
    while grows:
        count = len(made)
        for name, names in waiting:
            if name in made:
                made |= names
        grows = len(made) > count
    return made


def grouped(libraries):
    """Fills in the group of each library."""
    needs = {}
    for one in libraries:
        others = [other for other in libraries if other is not one]
        needs[id(one)] = [other for other in others if one.mentions & (other.bodies - one.bodies)]
    for one in libraries:
        group, waiting = [], [one]
        while waiting:
            other = waiting.pop(0)
            if all(other is not member for member in group):
                group.append(other)
                waiting += needs[id(other)]
        one.group = group


class Signer:
    """Makes signatures, or takes what is kept of them."""

    def __init__(self, answers):
        self.answers, self.setting, self.kept = answers, answers.setting, answers.kept
        self.words = PreludeWords(self.setting.prelude_text)
        self.program = answers.words[0]
        # the text that is signed, by that of the unit
        self.texts = {}
        self.source = write_file(os.path.join(answers.room, "words.c"), self.words.text)
        self.key = key_of(answers.key, sum_of(self.words.text.encode("latin-1")))

    def read(self, library):
        """Finds what the library's functions mention, and makes the texts that are signed: those without what none of them uses."""
        for ready in library.readies:
            with open(self.kept.path("texts", ready.sum), "rb") as file:
                text = Text(latin(ready.unit.shown), file.read().decode("latin-1"), whole=True)
            names = mentioned(text)
            library.mentions |= names
            self.texts[ready.sum] = self.kept.write_text(without_unused(text, names))

    def sign(self, library):
        """Fills in the signatures of a library, or why it has none."""
        readies = library.all_readies
        mentions = set().union(*(one.mentions for one in library.group))
        bodies = set().union(*(one.bodies for one in library.group))
        fault = self.words.fault(mentions, bodies)
        if fault:
            library.fault = fault
        elif len(readies) + 1 > MOST_SOURCES:
            library.fault = f"it has {len(readies)} sources"
        else:
            answer = self.answer(readies)
            library.text, library.fault = self.words.own_lines(answer["printed"], bodies), answer["fault"]
        return library

    def answer(self, readies):
        key = key_of(self.key, "signatures", [(self.texts[ready.sum], ready.unit.shown) for ready in readies])
        answer = self.kept.read("answers", key)
        if answer is None or set(answer) != {"printed", "fault"}:
            answer = self.asked(readies)
            self.kept.write("answers", key, answer)
        return answer

    def asked(self, readies):
        paths = [self.kept.path("texts", self.texts[ready.sum]) for ready in readies]
        status, printed = signatures_of(self.program, self.setting.lattice, [self.source, *paths])
        if status == 0:
            return {"printed": printed, "fault": self.unread(printed)}
        for ready, path in zip(readies, paths):
            printed = printed.replace(latin(path), latin(ready.unit.shown))
        first = printed.split("\n", 1)[0]
        return {"printed": "", "fault": "it is rejected by itself" if first == "rejected" else first}

    def unread(self, printed):
        """Why the signatures are no prelude, as those of types of many levels are not; an empty text where they are one."""
        library = Library("signatures", [], text=printed)
        empty = Ready(Unit("empty.c", "", "", ()), self.kept.write_text("\n"), 1)
        linked = self.answers.ask_with("empty.c", [empty], [library])
        return "" if linked.status == 0 else f"its signatures are no prelude: {(linked.fault or linked.printed).strip()}"


def is_apart(library, program):
    """Whether no function of the group is another one of the program, and none mentions one of the program."""
    inside = {ready.sum for ready in library.all_readies}
    others = {name for ready in program if ready.sum not in inside for name in ready.bodies}
    bodies = set().union(*(one.bodies for one in library.group))
    mentions = set().union(*(one.mentions for one in library.group))
    return not others & (bodies | mentions)


def clashing(libraries, program):
    """The libraries with signatures that cannot stand for their sources in a program of which they are a part."""
    inside = {ready.sum for ready in program}
    return [one for one in libraries if not one.fault and one.sums & inside and inside - one.sums and not is_apart(one, program)]


def replacing(libraries, program):
    """The libraries that stand for their sources in a program, by what is ready of its units; none that is in the group of another one."""
    inside = {ready.sum for ready in program}
    fit = [one for one in libraries if not one.fault and one.sums & inside and is_apart(one, program)]
    made = []
    for one in sorted(fit, key=lambda library: -len(library.group)):
        if not any(one is member for other in made for member in other.group):
            made.append(one)
    replaced = {ready.sum for one in made for ready in one.all_readies}
    return made if inside - replaced else []
