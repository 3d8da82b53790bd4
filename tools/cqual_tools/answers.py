"""Prints what cqual said of a program: its report, or errors and notes as gcc writes them, without those that a baseline knows.

A run has `options`, whose `source` names the program, the `status` and what was `printed`, and finds its `sources()`.
"""

import collections
import sys

from .diagnosis import Explained, Message, Writer, refusal
from .groups import entry_of, grouped, new_ones, read_baseline, write_baseline
from .options import is_coloured, is_gcc_style
from .reports import report_of


def compared(run, explained):
    """The errors that the baseline does not know, and how many it does; the file is brought up to date where that is asked for."""
    options = run.options
    known = read_baseline(options.baseline)
    if options.has("--update-baseline"):
        entries = collections.Counter(entry_of(one, options.source) for one in explained)
        write_baseline(options.baseline, known, options.source, entries)
        print(f"{options.script}: {options.baseline} lists {len(explained)} errors of {options.source}", file=sys.stderr)
        return []
    new = new_ones(explained, options.source, known)
    if len(new) < len(explained):
        print(f"{options.script}: {len(explained) - len(new)} known errors of {options.source} are not shown", file=sys.stderr)
    return new


def print_plain(run, explained, out):
    """The report with these errors, as cqual printed it."""
    if not explained and run.status == 1:
        return
    lines = run.printed.split("\n") if run.status != 1 else ["rejected", *(line for one in explained for line in one.failure.lines), ""]
    out.write("\n".join(lines).encode("latin-1"))


def print_gcc(run, report, explained, out):
    """What cqual said as gcc would."""
    writer = Writer(out, is_coloured(run.options))
    if report.answer == "malformed":
        message, line = refusal(report, run.sources())
        writer.message(message) if message else writer.line(line)
    elif report.answer == "accepted":
        writer.line(f"{run.options.source}: accepted")
    elif report.answer == "other":
        out.write(run.printed.encode("latin-1"))
    elif explained:
        print_errors(writer, explained, run.options)


def print_errors(writer, explained, options):
    """The errors: of one cause the first in full. One that says the same of the same place as another is none."""
    different = list({(one.spot, one.text): one for one in reversed(explained)}.values())[::-1]
    by_failure = {id(one.failure): one for one in different}
    causes = grouped([one.failure for one in different])
    for cause in causes:
        first = by_failure[id(cause[0])]
        for failure in cause:
            one = by_failure[id(failure)]
            if one is first or options.has("--all"):
                for message in (Message("error", one.spot, one.text), *one.notes()):
                    writer.message(message)
            else:
                writer.message(Message("error", one.spot, f"{one.text} [same cause as {first.spot.place}]"), in_full=False)
    if len(causes) < len(different) and not options.has("--all"):
        of = "one cause" if len(causes) == 1 else f"{len(causes)} causes"
        writer.line(f"{options.source}: {len(different)} errors of {of}; --all shows each in full")


def answered(run):
    """Prints what cqual said of the source, and returns the status."""
    options, out = run.options, sys.stdout.buffer
    report = report_of(run.printed)
    explained = []
    if report.failures:
        sources = run.sources()
        explained = [Explained(failure, sources) for failure in report.failures]
    status = run.status
    if options.baseline and status in (0, 1):
        explained = compared(run, explained)
        status = 1 if explained else 0
    if is_gcc_style(options):
        print_gcc(run, report, explained, out)
    else:
        print_plain(run, explained, out)
    out.flush()
    return status
