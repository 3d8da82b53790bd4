"""The words of cqual-run."""

import os
from dataclasses import dataclass, field
from typing import ClassVar

from .options import Options, Stop, check_baseline, take_options

USAGE = """usage: cqual-run [OPTION]... [COMMANDS]
       cqual-run [OPTION]... --make CMD

Runs cqual on whole programs: preprocesses each C file with the flags of its own compile, and gives cqual all sources of a program at once.

What is built:
  COMMANDS           a compile_commands.json, or a folder with one (where none is named: the working folder or its folder build). All
                     files are one program; of files with a second body of one function each is linked with all that collide with none
  --make CMD         runs CMD in a shell with wrappers before the compilers, `ld` and `ar`, which log what they are called for: a program
                     is what one link takes, through objects and libraries of the build; so is a library that no program takes whole
  --libraries        with --make: each library that can stand by its signatures is read once, and the programs take these in place of its
                     sources; what a library is that cannot is said, and it is linked whole, as without this word
  --program GLOB     only programs whose name fits; may stand more than once
  --without GLOB     leaves out sources whose name fits, such as 'tests/*'; may stand more than once
  -j N, --jobs N     so many processes at a time (as many as there are processors)

What is looked for: --lattice, --prelude, --model, --no-models, --include and --fortify, as cqual-cc has them

What is printed:
  --plain            what cqual prints of each program, behind a line with its name; the default where there is no terminal
  --style=gcc        errors and notes as gcc writes them; the default on a terminal
  --color=WHEN, --all  as cqual-cc has them
  --reports DIR      leaves the report of each program in DIR, as cqual printed it, and with --libraries the signatures of each library

For make and CI:
  --keep-going       a file that cannot be read is named and left out, and the others are linked
  --baseline FILE, --update-baseline  as cqual-cc has them, with the program in place of the source
  --no-fail          ends with 0 where a program is rejected or cannot be read (statuses 1 and 2)
  --cache DIR        where preprocessed files, answers and logs of builds are kept ($XDG_CACHE_HOME/cqual-run, or ~/.cache/cqual-run)
  --fresh            takes nothing that is kept there

  --help, --version  prints this; prints the version

cqual takes at most 256 sources, of 16777216 bytes each and 67108864 in all, behind the preprocessor.

Status: 0 where all programs are accepted, 1 where one is rejected, else 2 where one could not be read; 3 where the words have no meaning,
8 where the build fails, 9 where a file or a program is not there; 4, 5 and 6 as cqual has them.
"""

VALUES = (
    "--lattice", "--prelude", "--model", "--include", "--style", "--color", "--baseline", "--make", "--program", "--without", "--jobs",
    "--cache", "--reports",
)
SWITCHES = (
    "--fortify", "--no-fail", "--no-models", "--all", "--update-baseline", "--keep-going", "--fresh", "--plain", "--libraries",
)


@dataclass
class RunOptions(Options):
    FIELDS: ClassVar[dict] = {**Options.FIELDS, "--program": "programs", "--without": "withouts"}

    script: str = "cqual-run"
    make: str = ""
    programs: list = field(default_factory=list)
    withouts: list = field(default_factory=list)
    jobs: str = ""
    cache: str = ""
    reports: str = ""
    commands: str = ""


def split_jobs(words):
    """The words with `-jN` and `-j N` as --jobs."""
    for word in words:
        if word == "-j":
            yield "--jobs"
        elif word.startswith("-j") and word[2:]:
            yield "--jobs=" + word[2:]
        else:
            yield word


def options_of(words):
    """The options that the words mean."""
    made = RunOptions()
    others, behind = take_options(made, list(split_jobs(words)), VALUES, SWITCHES)
    unknown = [word for word in others if word.startswith("-")]
    if unknown:
        raise Stop(3, f"there is no option {unknown[0]}: cqual-run --help lists them")
    others += behind
    if len(others) > 1 or (others and made.make):
        raise Stop(3, f"one build at a time: {' and '.join([*others, *([f'--make {made.make}'] if made.make else [])])}")
    made.commands = others[0] if others else ""
    if made.has("--libraries") and not made.make:
        raise Stop(3, "--libraries wants --make CMD: a compile_commands.json tells of no libraries")
    check_baseline(made)
    if made.has("--plain"):
        if made.style == "gcc":
            raise Stop(3, "--plain and --style=gcc: one of both")
        made.style = "plain"
    if made.jobs and not (made.jobs.isdigit() and int(made.jobs) > 0):
        raise Stop(3, f"-j wants a number from 1, and not {made.jobs}")
    return made


def jobs_of(made):
    return int(made.jobs) if made.jobs else len(os.sched_getaffinity(0))


def cache_of(made):
    """The folder of what is kept."""
    home = os.environ.get("XDG_CACHE_HOME") or os.path.join(os.path.expanduser("~"), ".cache")
    return os.path.abspath(made.cache or os.path.join(home, "cqual-run"))
