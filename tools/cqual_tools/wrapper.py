"""Wrappers of compilers, linkers and `ar`: each calls the real one, and logs what it was called for and which bytes came in and out.

A build is run with a folder of wrappers first in its path. What is logged is known by checksums, so that a build may move and copy its
objects, and a later one may make only some of them.
"""

import fcntl
import json
import os
import shlex
import subprocess
import sys

from .calls import ARCHIVER, COMPILER, LAUNCHERS, LINKER, archive_of, call_of, environment, expanded
from .objects import is_archive, members_of, sum_of_file, taken_members
from .version import FOLDER

SHIM = """#!{python} -IS
import sys
sys.dont_write_bytecode = True
sys.path.insert(0, {folder!r})
from cqual_tools.wrapper import called
sys.exit(called({real!r}, {log!r}, {shims!r}, sys.argv[1:]))
"""


def put_wrapper(path, real, log, shims):
    """Puts a wrapper of a real program there; one that is there and in use stays."""
    text = SHIM.format(python=sys.executable, folder=FOLDER, real=real, log=log, shims=shims)
    try:
        with open(path, encoding="utf-8", errors="surrogateescape") as file:
            if file.read() == text:
                return
    except OSError:
        os.makedirs(os.path.dirname(path), exist_ok=True)
    with open(path + ".new", "w", encoding="utf-8", errors="surrogateescape") as file:
        file.write(text)
    os.chmod(path + ".new", 0o755)
    os.replace(path + ".new", path)


def wrapped_environment(folder, log):
    """The environment of a build with a wrapper of each compiler, linker and archiver: first on the path, and where $CC has a whole path."""
    made, seen = dict(os.environ), set()
    for place in made.get("PATH", "").split(os.pathsep):
        for name in sorted(os.listdir(place)) if os.path.isdir(place) and place != folder else []:
            real = os.path.abspath(os.path.join(place, name))
            wrapped = COMPILER.match(name) or LINKER.match(name) or ARCHIVER.match(name)
            if wrapped and name not in seen and os.access(real, os.X_OK):
                put_wrapper(os.path.join(folder, name), real, log, folder)
                seen.add(name)
    made["PATH"] = folder + os.pathsep + made.get("PATH", "")
    # a cache would answer without calling the compiler
    made["CCACHE_DISABLE"] = "1"
    for name in ("CC", "LD", "AR"):
        words = shlex.split(made.get(name, ""))
        at = next((at for at, word in enumerate(words) if os.path.basename(word) not in LAUNCHERS), None)
        if at is not None and os.sep in words[at]:
            shim = os.path.join(folder, "named", os.path.basename(words[at]))
            put_wrapper(shim, os.path.abspath(words[at]), log, folder)
            made[name] = shlex.join([*words[:at], shim, *words[at + 1 :]])
    return made


def called(real, log, shims, words):
    """Calls the real one as if nothing stood before it, then logs the call where it went well. Returns its status."""
    path = os.environ.get("PATH", "").split(os.pathsep)
    without = {**os.environ, "PATH": os.pathsep.join(place for place in path if place != shims)}
    status = subprocess.run([real, *words], env=without, check=False).returncode
    if status == 0:
        try:
            entry = entry_of(os.getcwd(), [real, *words])
        except Exception as fault:  # pylint: disable=broad-except  (a build never fails for its log)
            entry = {"directory": os.getcwd(), "words": [real, *words], "fault": f"{type(fault).__name__}: {fault}"}
        if entry:
            write_entry(log, entry)
    return status if status >= 0 else 128 - status


def write_entry(log, entry):
    with open(log, "a", encoding="utf-8") as file:
        fcntl.flock(file, fcntl.LOCK_EX)
        file.write(json.dumps(entry) + "\n")


def entry_of(directory, words):
    """What is logged of a call: its words, the checksums of objects, and the members of archives; None where it makes nothing."""
    words = expanded(words, directory)
    archive = archive_of(directory, words)
    if archive:
        return {"directory": directory, "words": words, "members": {archive: members_of(archive)}}
    call = call_of(directory, words)
    if call is None or not call.makes:
        return None
    call.folders += [folder for folder in os.environ.get("LIBRARY_PATH", "").split(os.pathsep) if folder]
    entry = {"directory": directory, "words": words, "environment": environment(), "sums": {}, "members": {}}
    if call.makes == "object":
        paths = [call.object_of(source) for source in [*call.sources, *call.others]]
    else:
        paths, archives, libraries = inputs_of(call)
        entry["shared"] = {path: sum_of_file(path) for path in libraries}
        # of a file that is compiled and linked at once no object is left to ask
        entry["members"] = taken_members(paths, archives, call.takes_all or bool(call.sources + call.others))
        paths = [*paths, call.linked()]
    entry["sums"] = {path: sum_of_file(path) for path in paths if os.path.isfile(path)}
    return entry


def inputs_of(call):
    """The objects, the archives and the shared libraries that a link is given; the system's are in no folder that is named."""
    objects, archives, libraries = [], [], []
    for name in call.inputs:
        path = library_of(call, name) if name.startswith("-l") else call.path_of(name)
        if path and is_archive(path):
            archives.append(path)
        elif path and elf_type(path) == SHARED:
            libraries.append(path)
        elif path and (elf_type(path) == RELOCATABLE or (path.endswith(".o") and os.path.isfile(path))):
            objects.append(path)
    return objects, archives, libraries


RELOCATABLE, SHARED = 1, 3


def elf_type(path):
    """The type of a file of ELF, whatever its name is; 0 where it is none."""
    try:
        with open(path, "rb") as file:
            head = file.read(18)
    except OSError:
        return 0
    return max(head[16:18]) if head.startswith(b"\x7fELF") and len(head) == 18 else 0


def library_of(call, name):
    """The library that `-lNAME` stands for; an empty text where it stands in no folder that is named."""
    for folder in call.folders:
        if name.startswith("-l:"):
            names = [name[3:]]
        else:
            names = [f"lib{name[2:]}.a"] if call.is_static else [f"lib{name[2:]}.so", f"lib{name[2:]}.a"]
        for one in names:
            path = call.path_of(os.path.join(folder, one))
            if os.path.isfile(path):
                return path
    return ""
