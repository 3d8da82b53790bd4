"""Objects and archives: checksums of objects and of members, and which members of archives a link takes, by what `nm` says."""

import hashlib
import os
import re
import shutil
import subprocess
from typing import NamedTuple

HEADER = 60


class Member(NamedTuple):
    """A member of an archive: its name there, and the checksum of its bytes."""

    name: str
    sum: str


def sum_of(data):
    return hashlib.sha256(data).hexdigest()


def sum_of_file(path):
    """The checksum of a file; an empty text where it cannot be read."""
    try:
        with open(path, "rb") as file:
            return sum_of(file.read())
    except OSError:
        return ""


def is_archive(path):
    try:
        with open(path, "rb") as file:
            return file.read(8) in (b"!<arch>\n", b"!<thin>\n")
    except OSError:
        return False


def members_of(path):
    """The members of an archive, in order; those of a thin one are files beside it."""
    with open(path, "rb") as file:
        data = file.read()
    is_thin, names, made, at = data.startswith(b"!<thin>\n"), b"", [], 8
    while at + HEADER <= len(data):
        name, size = data[at : at + 16].decode("latin-1").rstrip(), int(data[at + 48 : at + 58])
        begin = at + HEADER
        is_table = name in ("/", "//", "/SYM64/", "__.SYMDEF")
        if name == "//":
            names = data[begin : begin + size]
        elif not is_table:
            name = long_name(name, names)
            if is_thin:
                made.append(Member(name, sum_of_file(os.path.join(os.path.dirname(path), name))))
            else:
                made.append(Member(name, sum_of(data[begin : begin + size])))
        here = size if is_table or not is_thin else 0
        at = begin + here + here % 2
    return made


def long_name(name, names):
    """A name of up to 15 characters ends with `/`; a longer one stands in a table, `/` and a number say where."""
    if re.match(r"/\d+\Z", name):
        begin = int(name[1:])
        return names[begin : names.index(b"\n", begin)].decode("latin-1").rstrip("/")
    return name[:-1] if name.endswith("/") else name


class Symbols(NamedTuple):
    defined: set
    wanted: set


def symbols_in(path):
    """The global symbols of an object, or of each member of an archive in order; None where `nm` does not say."""
    nm = shutil.which("nm")
    if nm is None:
        return None
    ran = subprocess.run([nm, "-g", "-P", path], stdout=subprocess.PIPE, stderr=subprocess.PIPE, check=False)
    if ran.returncode or b"plugin needed" in ran.stderr:
        return None
    made = []
    for line in ran.stdout.decode("latin-1").splitlines():
        if line.endswith(":"):
            made.append(Symbols(set(), set()))
        elif line:
            if not made:
                made.append(Symbols(set(), set()))
            name, kind = line.split(" ")[:2]
            if kind == "U":
                made[-1].wanted.add(name)
            elif kind not in "wv":
                made[-1].defined.add(name)
    return made or [Symbols(set(), set())]


def taken_members(objects, archives, takes_all):
    """The members that a link takes of each archive: those that define what is wanted, again and again; all where that is not known."""
    members = {path: members_of(path) for path in archives}
    symbols = {path: symbols_in(path) for path in [*objects, *archives]}
    known = all(symbols[path] is not None for path in symbols)
    if takes_all or not known or any(len(symbols[path]) != len(members[path]) for path in archives):
        return members
    defined = set().union(*(one.defined for path in objects for one in symbols[path]))
    # the entry of a program stands in a file of the system's
    wanted = {"main"}.union(*(one.wanted for path in objects for one in symbols[path]))
    taken, grows = set(), True
    while grows:
        grows = False
        for path in archives:
            for at, one in enumerate(symbols[path]):
                if (path, at) not in taken and one.defined & (wanted - defined):
                    taken.add((path, at))
                    defined |= one.defined
                    wanted |= one.wanted
                    grows = True
    return {path: [member for at, member in enumerate(members[path]) if (path, at) in taken] for path in archives}
