"""Calls of compilers, linkers and `ar`: what each reads and makes, by its words."""

import os
import re
import shlex
from dataclasses import dataclass, field

from .options import MADE, MADE_SO, MADE_WITH, WITH_WORD

# the names of what is wrapped, with the prefix of a system and a version: x86_64-linux-gnu-gcc-12
COMPILER = re.compile(r"(?:[\w.]+-)*?(?:gcc|cc|c99|c89|clang|tcc|g\+\+|c\+\+|clang\+\+)(?:-[\d.]+)?\Z")
LINKER = re.compile(r"(?:[\w]+-)*?ld(?:\.bfd|\.gold|\.lld)?\Z")
ARCHIVER = re.compile(r"(?:[\w.]+-)*?(?:llvm-|gcc-)?ar(?:-[\d.]+)?\Z")
# what a compiler takes beside its words
ENVIRONMENT = ("CPATH", "C_INCLUDE_PATH", "LIBRARY_PATH", "GCC_EXEC_PREFIX", "COMPILER_PATH")
LAUNCHERS = {"ccache", "distcc", "sccache", "icecc"}
LINK_WITH_WORD = set("-m -T -z -e -u -h -b -R -F -f -y -Y -G -a -Map -soname -rpath -rpath-link -dynamic-linker".split()) | set(
    "--dynamic-linker --version-script --soname --entry --defsym --wrap --undefined --retain-symbols-file --build-id".split()
)


def environment():
    """Those of these variables that are set."""
    return {name: os.environ[name] for name in ENVIRONMENT if name in os.environ}


@dataclass
class Call:
    """A call of a compiler or a linker. It `makes` an `object`, a `program`, a `partial` link, or, where that is empty, none of these."""

    directory: str
    compiler: str
    makes: str = "program"
    flags: list = field(default_factory=list)
    # C files; files of other languages; objects, archives and libraries in their order
    sources: list = field(default_factory=list)
    others: list = field(default_factory=list)
    inputs: list = field(default_factory=list)
    folders: list = field(default_factory=list)
    output: str = ""
    takes_all: bool = False
    is_static: bool = False
    is_library: bool = False

    def path_of(self, name):
        return os.path.normpath(os.path.join(self.directory, name))

    def object_of(self, source):
        """The object that is made of a source; an empty text where it is linked at once."""
        if self.makes != "object":
            return ""
        return self.path_of(self.output or os.path.splitext(os.path.basename(source))[0] + ".o")

    def linked(self):
        return self.path_of(self.output or "a.out")


def without_launcher(words):
    """The words without a `ccache` before them."""
    at = 0
    while at + 1 < len(words) and os.path.basename(words[at]) in LAUNCHERS:
        at += 1
    return words[at:]


def expanded(words, directory):
    """The words with those of files in place of `@file`."""
    made = []
    for word in words:
        path = os.path.join(directory, word[1:])
        if word.startswith("@") and os.path.isfile(path):
            with open(path, encoding="utf-8", errors="surrogateescape") as file:
                made += expanded(shlex.split(file.read()), os.path.dirname(path))
        else:
            made.append(word)
    return made


def is_archiver(words):
    name = os.path.basename(words[0])
    return bool(ARCHIVER.match(name)) and not COMPILER.match(name)


def pairs_of(words, is_linker):
    """The words, each with its value where it has one; None where it has none."""
    with_word, joined = WITH_WORD.union(MADE_WITH), ("-o", "-x", "-L", "-l")
    if is_linker:
        with_word, joined = LINK_WITH_WORD, ("-o", "-L", "-l")
    at = 0
    while at < len(words):
        word = words[at]
        at += 1
        if word in with_word or word in joined:
            yield word, words[at] if at < len(words) else ""
            at += 1
        elif word.startswith(joined):
            yield word[:2], word[2:]
        else:
            yield word, None


def call_of(directory, words):
    """What a call of a compiler or a linker does; None where it is one of `ar`."""
    words = without_launcher(words)
    if not words or is_archiver(words):
        return None
    made, language = Call(directory, words[0]), ""
    for word, value in pairs_of(words[1:], LINKER.match(os.path.basename(words[0]))):
        if word == "-x" and value is not None:
            language = "" if value == "none" else value
        elif word == "-o":
            made.output = value
        elif value is not None:
            take_pair(made, word, value)
        elif word.startswith("-") and word != "-":
            take_flag(made, word)
        else:
            take_file(made, word, language)
    return made


def take_pair(made, word, value):
    """A flag with its value: where libraries are, or how the source is read."""
    if word == "-L":
        made.folders.append(value)
    elif word == "-l":
        made.inputs.append("-l" + value)
    elif word == "-Xlinker":
        made.takes_all |= "whole-archive" in value
    elif word not in LINK_WITH_WORD.union(MADE_WITH):
        made.flags += [word, value]


def take_flag(made, word):
    """A flag: what it says of what is made, or how the source is read."""
    if word in ("-c", "-S"):
        made.makes = "object" if word == "-c" else ""
    elif word in ("-E", "-M", "-MM", "-fsyntax-only"):
        made.makes = ""
    elif word in ("-r", "-shared", "-static", "-dynamiclib"):
        made.makes = "partial" if word == "-r" and made.makes else made.makes
        made.is_static |= word == "-static"
        made.is_library |= word != "-static"
    elif word.startswith(("-Wl,", "--whole-archive")):
        made.takes_all |= "whole-archive" in word
    elif word not in MADE and not word.startswith((*MADE_SO, *MADE_WITH)):
        made.flags.append(word)


def take_file(made, name, language):
    """A file, by its language or its ending."""
    ending = os.path.splitext(name)[1]
    if language in ("c", "cpp-output") or (not language and ending in (".c", ".i")):
        made.sources.append(name)
    elif language or ending in (".s", ".S", ".sx", ".cc", ".cpp", ".cxx", ".C", ".m", ".f", ".f90", ".go", ".d", ".h"):
        made.others.append(name)
    else:
        made.inputs.append(name)


def archive_of(directory, words):
    """The archive that a call of `ar` writes to; an empty text where it writes to none."""
    words = without_launcher(words)
    if not words or not is_archiver(words):
        return ""
    names = [word for word in words[1:] if not word.startswith("--")]
    if len(names) < 2:
        return ""
    letters = names[0].lstrip("-")
    if not set("rq") & set(letters):
        return ""
    at = 1 + (1 if set("abi") & set(letters) else 0) + (1 if "N" in letters else 0)
    return os.path.normpath(os.path.join(directory, names[at])) if at < len(names) else ""
