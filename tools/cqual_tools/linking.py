"""Runs cqual on lists of sources, keeps its answers, and says which files stand in the way of a program."""

import copy
import os
import subprocess
from dataclasses import dataclass, field

from .builds import Unit
from .diagnosis import Sources
from .kept import key_of
from .options import Stop
from .objects import sum_of_file
from .reports import report_of
from .running import prelude_of, reason_of, status_of
from .texts import Text
from .units import Ready, latin

MOST_SOURCES, MOST_BYTES = 256, 67108864


@dataclass
class Linked:
    """A program as it is given to cqual, with what came of it. `fault` is a line that says why there is no answer."""

    answers: "Answers"
    name: str
    readies: list
    # the files that are left out, or that keep it from being judged
    left_out: list = field(default_factory=list)
    status: int = 0
    printed: str = ""
    fault: str = ""
    # the libraries whose signatures stand for their sources
    libraries: list = field(default_factory=list)

    @property
    def more(self):
        """What stands behind the preludes: the signatures of libraries."""
        return "".join(one.prelude for one in self.libraries)

    @property
    def options(self):
        made = copy.copy(self.answers.setting.options)
        made.source = latin(self.name)
        return made

    @property
    def size(self):
        return sum(ready.size for ready in self.readies)

    def sources(self):
        """Where places of the report are looked for."""
        setting, texts, names = self.answers.setting, [], {}
        for ready in self.readies:
            with open(self.answers.kept.path("texts", ready.sum), "rb") as file:
                texts.append(Text(latin(ready.unit.shown), file.read().decode("latin-1")))
            names.update({place: list(replaced) for place, replaced in ready.names})
        return Sources(texts, prelude_of(setting, self.more), setting.tool_files, names)


def apart(readies):
    """Lists of units without two plain bodies of one function: what collides with nothing is in each, the rest by first fit."""
    readies = list({ready.sum: ready for ready in readies}.values())
    owners = {}
    for ready in readies:
        for name in ready.bodies:
            owners.setdefault(name, []).append(ready)
    groups = []
    for ready in readies:
        if all(len(owners[name]) == 1 for name in ready.bodies):
            continue
        group = next((one for one in groups if not any(set(ready.bodies) & set(other.bodies) for other in one)), None)
        if group is None:
            groups.append([ready])
        else:
            group.append(ready)
    colliding = {ready.sum for group in groups for ready in group}
    made = []
    for group in groups or [[]]:
        inside = {ready.sum for ready in group}
        made.append([ready for ready in readies if ready.sum not in colliding or ready.sum in inside])
    return made


def limit_of(linked):
    """A line where the program is past a limit of cqual."""
    if len(linked.readies) > MOST_SOURCES:
        return f"{linked.name} has {len(linked.readies)} sources: cqual takes {MOST_SOURCES} (--program and --without say which)"
    if linked.size > MOST_BYTES:
        return f"{linked.name} has {linked.size} bytes behind the preprocessor: cqual takes {MOST_BYTES}"
    return ""


class Answers:
    """Asks cqual, or what is kept of its answers."""

    def __init__(self, setting, kept, room):
        self.setting, self.kept, self.room, self.words = setting, kept, room, setting.words(room)
        self.key = key_of(sum_of_file(self.words[0]), sum_of_file(setting.lattice), setting.prelude_text, os.path.basename(setting.lattice))

    def check_setting(self):
        """Stops where the lattice or the prelude is refused, whatever the sources are."""
        empty = Ready(Unit("empty.c", "", "", ()), self.kept.write_text("\n"), 1)
        linked = self.ask(Linked(self, "empty.c", [empty]))
        if linked.status != 0:
            raise Stop(linked.status, linked.fault or linked.printed.rstrip("\n"))

    def ask_with(self, name, readies, libraries):
        """The answer of a program that has libraries by their signatures."""
        return self.ask(Linked(self, name, readies, libraries=libraries))

    def words_for(self, linked):
        """The first words of cqual for a program."""
        more = linked.more
        return self.setting.words(self.room, more, f"{key_of(more)}.h") if more else self.words

    def ask(self, linked):
        """Fills in the answer of a program."""
        linked.fault = limit_of(linked)
        if linked.fault:
            linked.status = 2
            return linked
        key = key_of(self.key, [(ready.sum, ready.unit.shown) for ready in linked.readies], *([linked.more] if linked.libraries else []))
        answer = self.kept.read("answers", key)
        if answer is None or set(answer) != {"status", "printed"}:
            answer = self.asked(linked)
            if answer["status"] in (0, 1, 2):
                self.kept.write("answers", key, answer)
        linked.status, linked.printed = answer["status"], answer["printed"]
        return linked

    def asked(self, linked):
        paths = [self.kept.path("texts", ready.sum) for ready in linked.readies]
        try:
            ran = subprocess.run([*self.words_for(linked), *paths], stdout=subprocess.PIPE, check=False)
        except OSError as fault:
            raise Stop(9, f"cannot run {self.words[0]}: {fault.strerror}") from fault
        status = status_of(ran)
        if status not in (0, 1, 2):
            linked.fault = f"{linked.name}: {reason_of(status, self.words[0], [self.setting.lattice, *paths])}"
        printed = ran.stdout.decode("latin-1")
        for ready, path in zip(linked.readies, paths):
            if status == 2 and printed.startswith(f"malformed {latin(path)}:"):
                printed = printed.replace(latin(path), latin(ready.unit.shown), 1)
        return {"status": status, "printed": printed}


def refused_code(linked):
    """The code of a program that is malformed; an empty text where it is not."""
    report = report_of(linked.printed)
    return report.code.split(" ")[0] if linked.status == 2 and report.answer == "malformed" else ""


def second_body(linked):
    """Of a program that has a second body of a function (H7): the last unit that stands at the place; None where there are none besides."""
    if refused_code(linked) != "H7" or len(linked.readies) < 2:
        return None
    place = report_of(linked.printed).place
    for ready, text in reversed(list(zip(linked.readies, linked.sources().texts))):
        if (place.file, place.line) in text.lines:
            return ready
    return None
