"""cqual-cc --signatures: preprocesses the files of a library, and prints the library's signatures."""

import os

from .libraries import PreludeWords, mentioned, signatures_of
from .options import Stop
from .running import Run, found_program, write_file
from .texts import Text
from .units import latin, plain_bodies
from .unused import without_unused


def texts_of(run, sources):
    """The texts of the files that are signed, what their functions mention, and the functions that have a plain body in them."""
    texts, names, bodies = [], set(), set()
    for source in sources:
        run.options.source = source
        run.preprocess()
        text = Text(latin(source), run.text, whole=True)
        here = mentioned(text)
        names |= here
        bodies |= set(plain_bodies(text))
        texts.append(without_unused(text, here))
    return texts, names, bodies


def sign(options, room):
    """The status of a run that prints signatures."""
    run, sources = Run(options, room), list(options.sources)
    texts, names, bodies = texts_of(run, sources)
    words = PreludeWords(run.setting.prelude_text)
    fault = words.fault(names, bodies)
    if fault:
        raise Stop(1, f"no signature: {fault}")
    paths = [write_file(os.path.join(room, "words.c"), words.text)]
    for number, (source, text) in enumerate(zip(sources, texts)):
        folder = os.path.join(room, str(number))
        os.mkdir(folder)
        paths.append(write_file(os.path.join(folder, os.path.basename(source)), text))
    status, printed = signatures_of(found_program(), run.setting.lattice, paths)
    for source, path in zip(sources, paths[1:]):
        printed = printed.replace(latin(path), latin(source))
    print_bytes(words.own_lines(printed, bodies) if status == 0 else printed)
    return status


def print_bytes(text):
    with os.fdopen(os.dup(1), "wb") as out:
        out.write(text.encode("latin-1"))
