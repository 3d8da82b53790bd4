"""Which version this is, and which logic the program was proved in."""

import os
import shutil
import subprocess

# the folder that this package stands in: tools in the repository, share/cqual where it is installed
FOLDER = os.path.dirname(os.path.dirname(os.path.abspath(__file__)))
INSTALLED = os.path.isdir(os.path.join(FOLDER, "lattices"))
TOP = os.path.normpath(os.path.join(FOLDER, "..", "..") if INSTALLED else os.path.join(FOLDER, ".."))
SHARE = FOLDER if INSTALLED else os.path.join(TOP, "share", "cqual")


def line_of(path):
    """The first line of a file, or an empty text where there is none."""
    try:
        with open(path, encoding="utf-8") as file:
            return file.readline().strip()
    except OSError:
        return ""


def version():
    return line_of(os.path.join(SHARE if INSTALLED else TOP, "VERSION")) or "of no known version"


def logic():
    """The line of `rt version` for the program: written down when it was installed; in the repository that of the `rt` that is there."""
    if INSTALLED:
        return line_of(os.path.join(SHARE, "LOGIC"))
    if shutil.which("rt") is None:
        return ""
    ran = subprocess.run(["rt", "version"], stdout=subprocess.PIPE, stderr=subprocess.DEVNULL, check=False)
    return ran.stdout.decode("utf-8", "replace").strip()


def version_text(script):
    proved = logic()
    return f"{script} {version()}\n" + (f"the program is proved with {proved}\n" if proved else "")
