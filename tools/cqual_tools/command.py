"""cqual-cc: runs the preprocessor and cqual, and prints what cqual says of the source."""

import tempfile

from .answers import answered
from .options import USAGE, is_gcc_style, options_of
from .running import Run
from .scripts import run_script
from .signing import sign


def run_with(options):
    """The status of a run, with all that it prints."""
    with tempfile.TemporaryDirectory(prefix="cqual-cc-") as room:
        if options.has("--signatures"):
            status = sign(options, room)
            return 0 if options.has("--no-fail") and status in (1, 2) else status
        run = Run(options, room)
        run.preprocess()
        printing = not is_gcc_style(options) and not options.baseline
        run.start(printing)
        status = run.status if printing else answered(run)
    if options.has("--no-fail") and status in (1, 2):
        return 0
    return status


def main(words):
    before = words[: words.index("--")] if "--" in words else words
    return run_script("cqual-cc", USAGE, before, lambda: run_with(options_of(words)))
