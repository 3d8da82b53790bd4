"""Errors of one cause, and baselines: lists of errors that are known."""

import collections

from .options import Stop
from .wording import called, cause_of, sink_of, stable_name


def cause_key(failure):
    """The same for errors that begin at one place and end at limits of one kind: those of one function, or the uses of places."""
    steps = failure.steps()
    sink = sink_of(failure)
    kind = called(sink) if sink is not None else ""
    first = steps[0][0] if steps else None
    return (first.place if first else failure.place, failure.element, failure.bound, kind)


def grouped(failures):
    """Lists of errors of one cause, in the order of their first ones."""
    made = {}
    for one in failures:
        made.setdefault(cause_key(one), []).append(one)
    return list(made.values())


def entry_of(explained, source):
    """What a baseline keeps of an error: nothing that changes where lines move."""
    failure = explained.failure
    function = explained.sources.text_with(explained.place).function_at(explained.place)
    cause = f"{failure.element} in {stable_name(cause_of(failure))}"
    bound = f"{failure.bound} at {stable_name(sink_of(failure))}"
    return "\t".join(field.replace("\t", " ") for field in (source, function or "-", cause, bound))


HEAD = "# Errors of cqual that are known: the source, the function, the cause, the bound, and how many. Made by cqual-cc --update-baseline."


def read_baseline(path):
    """How many errors of each entry are known; none where there is no file yet."""
    made = collections.Counter()
    try:
        with open(path, encoding="latin-1") as file:
            lines = file.read().split("\n")
    except FileNotFoundError:
        return made
    except OSError as fault:
        raise Stop(9, f"cannot read {path}: {fault.strerror}") from fault
    for number, line in enumerate(lines, 1):
        if line and not line.startswith("#"):
            entry, _, count = line.rpartition("\t")
            if entry.count("\t") != 3 or not count.isdigit():
                raise Stop(3, f"{path}:{number}: this is no line of a baseline")
            made[entry] += int(count)
    return made


def write_baseline(path, known, source, entries):
    """Writes the entries of a source into the file, in place of those that it has of it."""
    kept = collections.Counter({entry: count for entry, count in known.items() if entry.split("\t")[0] != source})
    kept.update(entries)
    text = HEAD + "\n" + "".join(f"{entry}\t{count}\n" for entry, count in sorted(kept.items()))
    try:
        with open(path, "w", encoding="latin-1") as file:
            file.write(text)
    except OSError as fault:
        raise Stop(9, f"cannot write {path}: {fault.strerror}") from fault


def new_ones(explained, source, known):
    """The errors that are not known: of each entry those behind as many as the baseline has."""
    left, made = collections.Counter(known), []
    for one in explained:
        entry = entry_of(one, source)
        if left[entry] > 0:
            left[entry] -= 1
        else:
            made.append(one)
    return made
