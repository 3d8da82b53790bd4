"""The words of cqual-cc: its options, and behind `--` the flags of a compiler with one source. cqual-run takes most of them too."""

import os
import sys
from dataclasses import dataclass, field
from typing import ClassVar

USAGE = """usage: cqual-cc [OPTION]... -- [FLAG]... FILE.c
       cqual-cc [OPTION]... --signatures -- [FLAG]... FILE.c...

Preprocesses FILE.c with the flags of a compiler and runs cqual on it.

What is looked for:
  --lattice FILE     the lattice file; a name alone is also looked for in share/cqual/lattices (taint.q where none is named)
  --prelude FILE     a prelude, likewise in share/cqual/preludes; may stand more than once: the files are put one behind the other
                     (where there is no --lattice and no --prelude: taint.h). A line `models: NAME..` in it names models to use
  --model FILE       a model, likewise in share/cqual/models, whose macros are put over the calls of the source; may stand more than once
  --no-models        uses none that a prelude names
  --include FILE     a file to include before the source and behind what the flags include; likewise in share/cqual/models
  --fortify          leaves _FORTIFY_SOURCE as the flags have it

What is printed:
  --style=gcc        errors and notes as gcc writes them, with the lines of the source; the default on a terminal
  --style=plain      what cqual prints; the default elsewhere
  --color=WHEN       always, never, or auto: colours on a terminal (with --style=gcc)
  --all              each error in full, also those of one cause (with --style=gcc)
  --annotate         the annotated source behind an accepted report (implies --style=plain)
  --check REPORT     checks the paths of a report (implies --style=plain)
  --certify          the certificate of an accepted source, in place of its report (implies --style=plain)
  --verify CERT      checks a certificate of the source (implies --style=plain)
  --who NAME         what reaches the declared names of this spelling, and what they reach (implies --style=plain)
  --signatures       the signatures of the functions of these files, which are one library: a prelude that stands for them. What the preludes
                     say of functions they mention is said of them too; one with index words wants a body here (implies --style=plain)

For make and CI:
  --baseline FILE    errors that the file lists are known: only others are printed, and make the run fail
  --update-baseline  writes the errors of this source into the file of --baseline
  --no-fail          ends with 0 where cqual rejects, or refuses the source (statuses 1 and 2), for a make that should go on

  --help, --version  prints this; prints the version

Options may also be written --lattice=FILE and so on. The compiler is $CC, or gcc. cqual is $CQUAL, or the program beside this script,
or the one on the path, or that of crates/cqual/out. Flags that say what is made (-c, -S, -o FILE, -M..) are left out. __CQUAL__ is
defined as 1.

Status: that of cqual; 3 where the words have no meaning, 8 where the preprocessor fails, 9 where a file or a program is not there.
"""

VALUES = ("--lattice", "--prelude", "--model", "--include", "--check", "--verify", "--who", "--style", "--color", "--baseline")
SWITCHES = ("--annotate", "--certify", "--signatures", "--fortify", "--no-fail", "--no-models", "--all", "--update-baseline")
CHOICES = {"--style": ("gcc", "plain"), "--color": ("auto", "always", "never")}

# flags that say what is made: alone, with the next word, with the rest of the word
MADE = {"-c", "-S", "-E", "-M", "-MM", "-MD", "-MMD", "-MG", "-MP", "-pipe", "-P"}
MADE_WITH = ("-o", "-MF", "-MT", "-MQ")
# with -g3 and with -dD the preprocessor writes the macros out; with -save-temps it writes files
MADE_SO = ("-Wp,-M", "-g", "-dD", "-dM", "-dN", "-dI", "-dU", "-save-temps")
WITH_WORD = set(
    "-include -I -D -U -isystem -iquote -idirafter -imacros -isysroot -iprefix -iwithprefix -iwithprefixbefore --sysroot -x -L -l -T -z -u -e "
    "-Xlinker -Xassembler -Xpreprocessor -Xclang -mllvm -target -arch -A -aux-info --param -dumpbase -dumpbase-ext -dumpdir".split()
)


class Stop(Exception):
    """An end with a status and a line for the user."""

    def __init__(self, status, line):
        super().__init__(line)
        self.status, self.line = status, line

    def __reduce__(self):
        return Stop, (self.status, self.line)


@dataclass
class Options:
    # options whose field has another name; one whose field is a list may stand more than once
    FIELDS: ClassVar[dict] = {"--prelude": "preludes", "--model": "models", "--include": "includes"}

    script: str = "cqual-cc"
    lattice: str = ""
    preludes: list = field(default_factory=list)
    models: list = field(default_factory=list)
    includes: list = field(default_factory=list)
    check: str = ""
    verify: str = ""
    who: str = ""
    style: str = ""
    color: str = "auto"
    baseline: str = ""
    switches: set = field(default_factory=set)
    flags: list = field(default_factory=list)
    source: str = ""
    # of a library there may be several
    sources: list = field(default_factory=list)

    def has(self, switch):
        return switch in self.switches


def options_of(words):
    """The options that the words mean."""
    made = Options()
    others, behind = take_options(made, words, VALUES, SWITCHES)
    if others:
        raise Stop(3, f"there is no option {others[0]}: cqual-cc --help lists them; the flags and the file stand behind --")
    take_flags(made, behind)
    check_baseline(made)
    check_question(made)
    return made


def question_of(made):
    """The words of cqual that ask something else than the report."""
    asked = [[name] for name in ("--annotate", "--certify", "--signatures") if made.has(name)]
    values = (("--check", made.check), ("--verify", made.verify), ("--who", made.who))
    return asked + [[name, value] for name, value in values if value]


def check_question(made):
    """What is asked is one thing, and what cqual answers to it is printed as it is."""
    asked = question_of(made)
    if len(asked) > 1:
        raise Stop(3, f"{asked[0][0]} and {asked[1][0]}: one of both")
    if asked:
        if made.style == "gcc" or made.baseline:
            raise Stop(3, f"{asked[0][0]} prints what cqual prints: no --style=gcc and no --baseline")
        made.style = "plain"


def take_options(made, words, values, switches):
    """Takes the options before `--`, and returns the words before it that are none, and those behind it."""
    others, at = [], 0
    while at < len(words) and words[at] != "--":
        word = words[at]
        name, equals, value = word.partition("=")
        at += 1
        if name in switches and not equals:
            made.switches.add(name)
        elif name in values:
            if not equals:
                if at == len(words) or words[at] == "--":
                    raise Stop(3, f"{name} wants a value")
                value = words[at]
                at += 1
            take_value(made, name, value)
        else:
            others.append(word)
    return others, words[at + 1 :]


def check_baseline(made):
    if made.has("--update-baseline") and not made.baseline:
        raise Stop(3, "--update-baseline wants --baseline FILE")


def take_value(made, name, value):
    if not value:
        raise Stop(3, f"{name} wants a value")
    if name in CHOICES and value not in CHOICES[name]:
        raise Stop(3, f"{name} is one of {', '.join(CHOICES[name])}")
    field_name = made.FIELDS.get(name, name[2:])
    if isinstance(getattr(made, field_name), list):
        getattr(made, field_name).append(value)
    elif name == "--lattice" and made.lattice:
        raise Stop(3, f"--lattice stands twice: run {made.script} once for each lattice, with its preludes")
    else:
        setattr(made, field_name, value)


def take_flags(made, words):
    """The flags without those that say what is made, and the source."""
    at = 0
    while at < len(words):
        word = words[at]
        at += 1
        if word in MADE or word.startswith(MADE_SO):
            continue
        if word in MADE_WITH:
            at += 1
        elif word.startswith(MADE_WITH):
            continue
        elif word in WITH_WORD:
            made.flags += words[at - 1 : at + 1]
            at += 1
        elif word.endswith((".c", ".i")) and not word.startswith("-"):
            if made.source and not made.has("--signatures"):
                raise Stop(3, f"two sources, {made.source} and {word}: cqual-cc takes one")
            made.source = made.source or word
            made.sources.append(word)
        else:
            made.flags.append(word)
    if not made.source:
        raise Stop(3, "there is no source: cqual-cc [OPTION]... -- [FLAG]... FILE.c")


def is_gcc_style(options, out=None):
    """Whether diagnoses as gcc writes them are wanted."""
    return options.style == "gcc" or (not options.style and (out or sys.stdout).isatty())


def is_coloured(options, out=None):
    if options.color == "auto":
        return (out or sys.stdout).isatty() and os.environ.get("TERM", "dumb") != "dumb" and "NO_COLOR" not in os.environ
    return options.color == "always"
