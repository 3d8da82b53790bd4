"""What the scripts have in common: how they begin and end."""

import contextlib
import os
import signal
import sys

from .options import Stop
from .version import version_text


def run_script(name, usage, words, work):
    """Prints the usage or the version where a word asks for it, or else does the work; returns the status."""
    signal.signal(signal.SIGTERM, lambda *_: sys.exit(143))
    if "--help" in words:
        print(usage, end="")
        return 0
    if "--version" in words:
        print(version_text(name), end="")
        return 0
    try:
        status = work()
        sys.stdout.flush()
        return status
    except Stop as stop:
        sys.stdout.flush()
        print(f"{name}: {stop.line}", file=sys.stderr)
        return stop.status
    except BrokenPipeError:
        # what nobody reads any more would be written once more at the end
        with contextlib.suppress(OSError, ValueError):
            os.dup2(os.open(os.devnull, os.O_WRONLY), sys.stdout.fileno())
        return 5
    except KeyboardInterrupt:
        return 130
