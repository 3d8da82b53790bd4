"""Paths and walks as one page of HTML, with the lines of the sources beside the steps. It has no script and asks no network."""

import os
from html import escape

from .paths import MOST_OPEN, colour_of, shown, title_of
from .reports import Failure
from .texts import TOKEN

MOST_BYTES = 1 << 26
STYLE = """
body { font: 15px/1.45 system-ui, sans-serif; margin: 1.5em; color: #1a1a1a; background: #fff; }
h1 { font-size: 1.35em; } h2 { font-size: 1.1em; margin: 2em 0 .4em; overflow-wrap: anywhere; }
code, pre { font-family: ui-monospace, "DejaVu Sans Mono", monospace; font-size: .88em; }
table { border-collapse: collapse; width: 100%; }
th { text-align: left; font-weight: 600; border-bottom: 1px solid #999; padding: .2em .6em; }
td { vertical-align: top; border-bottom: 1px solid #e4e4e4; padding: .2em .6em; }
td.step { overflow-wrap: anywhere; } td.step > div { display: flex; align-items: stretch; }
td.step p { margin: 0; flex: 1; } td.place { white-space: nowrap; color: #555; }
pre { margin: 0; white-space: pre-wrap; overflow-wrap: anywhere; tab-size: 4; }
mark { background: #ffe08a; padding: 0 1px; }
.bar { flex: none; width: 1.1em; margin: -.2em 0 -.2em .2em; border-left: 3px solid #b5b5b5; }
.kind { font-weight: 600; } .number { color: #666; }
.call { color: #fff; background: #666; border-radius: .6em; padding: 0 .5em; font-size: .85em; white-space: nowrap; }
.alone { color: #222; background: #fff; border: 1px dashed #222; }
nav li { overflow-wrap: anywhere; }
"""


class Files:
    """The lines of files, read once; names are relative to a folder."""

    def __init__(self, folder):
        self.folder, self.read = os.fsencode(folder), {}

    def line(self, place):
        """The bytes of a line, or None where it cannot be read."""
        if place.file not in self.read:
            self.read[place.file] = self.lines_of(os.path.join(self.folder, place.file.encode("latin-1")))
        lines = self.read[place.file]
        return lines[place.line - 1] if 0 < place.line <= len(lines) else None

    @staticmethod
    def lines_of(path):
        try:
            # (a pipe or a device would never end)
            if not os.path.isfile(path) or os.path.getsize(path) > MOST_BYTES:
                return []
            with open(path, "rb") as file:
                return file.read().decode("latin-1").split("\n")
        except (OSError, ValueError):
            return []


def text(latin):
    return escape(shown(latin))


def source_text(latin):
    """A part of a line of a source: tabs stay."""
    return "\t".join(text(part) for part in latin.split("\t"))


def marked(line, column):
    """A line with the token at a column marked; that of the preprocessed line can be another, and behind the end nothing is."""
    line = line.removesuffix("\r")
    found = TOKEN.match(line, column - 1) if 0 < column <= len(line) else None
    if found is None or found.lastgroup in ("space", "directive"):
        return source_text(line)
    return f"{source_text(line[: found.start()])}<mark>{source_text(found[0])}</mark>{source_text(line[found.end() :])}"


def bars_of(row):
    """The indentation of a row: a bar for each open call, in the colour of its pair; of very many the inner ones, and how many more."""
    more = f'<span class="number">+{row.depth - MOST_OPEN}&nbsp;</span>' if row.depth > MOST_OPEN else ""
    bars = []
    for call in row.open:
        look, title = ("", "an open call") if call is None else (f' style="border-color:{colour_of(call)}"', f"inside call {call}")
        bars.append(f'<span class="bar"{look} title="{title}"></span>')
    return more + "".join(bars)


def call_of(row):
    """The sign of a call or return: the number of its pair in its colour, or that it has none."""
    if row.call is not None:
        return f' <span class="call" style="background:{colour_of(row.call)}">call {row.call}</span>'
    if row.step.kind in ("enter", "leave"):
        return f' <span class="call alone">no {"return" if row.step.kind == "enter" else "call"}</span>'
    return ""


def said(step):
    if step.kind == "const":
        return f"<code>{text(step.element)}</code> in <code>{text(str(step.target))}</code>"
    if step.kind == "bound":
        return f"<code>{text(str(step.source))}</code> by <code>{text(step.element)}</code>"
    return f"<code>{text(str(step.source))}</code> to <code>{text(str(step.target))}</code>"


def row_text(row, files):
    step, line = row.step, files.line(row.step.place)
    colour = f' style="color:{colour_of(row.call)}"' if row.call is not None else ""
    source = "" if line is None else f"<pre>{marked(line, step.place.column)}</pre>"
    return (
        f'<tr><td class="step"><div>{bars_of(row)}<p><span class="kind"{colour}>{step.kind}</span> '
        f'<span class="number">{step.number}</span>{call_of(row)} {said(step)}</p></div></td>'
        f'<td class="place"><code>{text(str(step.place))}</code></td><td>{source}</td></tr>'
    )


def section(number, trace, files):
    rows, all_there = trace.rows()
    made = [
        f'<h2 id="p{number}">{number}. {"<br>".join(text(line) for line in title_of(trace.route))}</h2>',
        "<table><thead><tr><th>Step</th><th>Place</th><th>Source</th></tr></thead><tbody>",
        *(row_text(row, files) for row in rows),
        "</tbody></table>",
    ]
    if not all_there:
        made.append(f"<p>The first {len(rows)} steps: the path goes on through the same sub-paths again and again.</p>")
    return made


def page_of(name, traces, folder, nothing=""):
    """The page of routes with their numbers; `nothing` is what is said where there are none."""
    files = Files(folder)
    what = "Paths" if all(isinstance(trace.route, Failure) for _, trace in traces) else "Walks"
    head = f"{what} of {text(name)}" if traces else text(name)
    made = [
        "<!DOCTYPE html>",
        f'<html lang="en"><head><meta charset="utf-8"><title>{head}</title><style>{STYLE}</style></head><body>',
        f"<h1>{head}</h1>",
    ]
    if not traces:
        made.append(f"<p>{text(nothing)}</p>")
    else:
        links = (f'<li value="{number}"><a href="#p{number}">{", ".join(text(line) for line in title_of(trace.route))}</a></li>'
                 for number, trace in traces)
        made += ["<nav><ol>", *links, "</ol></nav>"]
    for number, trace in traces:
        made += section(number, trace, files)
    return "\n".join([*made, "</body></html>"]) + "\n"
