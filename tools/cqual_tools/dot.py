"""Paths and walks as a picture in the language of Graphviz (dot)."""

from .paths import Group, asked_of, colour_of, shown, title_of

PLAIN = "#444444"
HEAD = """digraph cqual {
  graph [fontname="Helvetica,Arial,sans-serif", fontsize=12, nodesep=0.35, ranksep=0.4];
  node [fontname="Helvetica,Arial,sans-serif", fontsize=10, shape=box, height=0.3];
  node [style="filled,rounded", fillcolor=white, color="#444444"];
  edge [fontname="Helvetica,Arial,sans-serif", fontsize=9, color="#444444", fontcolor="#444444"];
"""


def quoted(*lines):
    """A label, of several lines with each at the left. A `&` stands as it is; dot would read it as the begin of a character's name."""
    safe = [line.replace("\\", "\\\\").replace('"', '\\"').replace("&", "&amp;") for line in lines]
    return f'"{safe[0]}"' if len(safe) == 1 else '"' + "".join(f"{line}\\l" for line in safe) + '"'


class Picture:
    """The cluster of one route. Each variable is one node; it stands in the box of its function."""

    def __init__(self, name, trace, owners):
        self.name, self.trace, self.owners = name, trace, owners
        self.boxes, self.nodes, self.places, self.unnamed = {}, {}, {}, 0
        self.ends, self.edges, self.drawn = [], [], set()
        # functions that are entered without a return, and left without a call
        self.unreturned, self.uncalled = set(), set()
        for number, parts in trace.bodies():
            self.take(number, parts)

    def take(self, number, parts):
        """Takes the path, or a sub-path: variables that no call tells a function of share a box as long as they follow on one another."""
        through, box = "" if number is None else f"sub {number}, ", None
        for part in parts:
            if isinstance(part, Group):
                call = self.trace.call(part)
                source, box = self.node(part.enter.source, box)
                inner, _ = self.node(part.enter.target, None)
                self.edge(source, inner, part.enter, through, call)
                inner, _ = self.node(part.leave.source, None)
                target, box = self.node(part.leave.target, box)
                self.edge(inner, target, part.leave, through, call)
                self.keep_below(source, target)
            elif not isinstance(part, int):
                box = self.take_step(part, through, box)

    def take_step(self, step, through, box):
        """Takes a step that is in no group, and returns the box in which the path is behind it."""
        if step.kind == "const":
            target, box = self.node(step.target, box)
            self.edge(self.end(step, "ellipse"), target, step, through)
        elif step.kind == "bound":
            source, box = self.node(step.source, box)
            self.edge(source, self.end(step, "octagon"), step, through)
        else:
            source, box = self.node(step.source, box)
            if step.kind == "enter":
                self.unreturned.add(self.owners.own(step.target))
            elif step.kind == "leave":
                self.uncalled.add(self.owners.own(step.source))
            target, box = self.node(step.target, box)
            self.edge(source, target, step, through)
        return box

    def node(self, variable, box):
        """The node of a variable, and the box to go on in: that of no function into which further variables of none come, or None."""
        function = self.owners.of(variable)
        if variable not in self.nodes:
            if function is None and box is None:
                self.unnamed += 1
                box = self.unnamed
            self.nodes[variable] = f"{self.name}v{len(self.nodes) + 1}"
            self.places[variable] = function or box
            self.boxes.setdefault(function or box, []).append(variable)
        return self.nodes[variable], None if function else self.places[variable]

    def end(self, step, shape):
        """The node of the element of a const or a bound."""
        node = f"{self.name}e{step.number}"
        line = f"{node} [label={quoted(shown(step.element))}, shape={shape}, style=filled, fillcolor=\"#fff3c4\"];"
        if line not in self.ends:
            self.ends.append(line)
        return node

    def edge(self, source, target, step, through, call=None):
        """An edge for a step; one of a pair has its colour and number. A step that was drawn so is not drawn again."""
        if (step.number, call) in self.drawn:
            return
        self.drawn.add((step.number, call))
        words = f"{step.kind} {step.number}"
        if call is not None:
            words, look = f"{words}, call {call}", f', color="{colour_of(call)}", fontcolor="{colour_of(call)}", penwidth=2'
            if step.kind == "leave":
                look += ", constraint=false"
        elif step.kind in ("enter", "leave"):
            words, look = f"{words}, no {'return' if step.kind == 'enter' else 'call'}", ', color=black, fontcolor=black, style=dashed'
        else:
            look = ""
        # (blanks keep the text off the line)
        label = quoted(f"  {words}  ")
        tip = quoted(shown(f"{through}{step.number} {step.place} {step.kind} {step.text}"))
        self.edges.append(f"{source} -> {target} [label={label}{look}, tooltip={tip}];")

    def keep_below(self, source, target):
        """Has the picture go on below a call behind its return: a step that is not seen, in place of the return that would turn it over."""
        if source != target and (source, target) not in self.drawn:
            self.drawn.add((source, target))
            self.edges.append(f"{source} -> {target} [style=invis];")

    def box_lines(self, function, variables, number):
        """The box of a function, with words where a path ends in it or begins in it; one of no known function has no name."""
        if isinstance(function, int):
            look = ["label=\"\";", 'style="dotted,rounded"; color="#888888";']
        else:
            words = [shown(str(one)) for one in self.owners.declarations(function)]
            told = len(words)
            if function in self.uncalled:
                words.append("(left without a call)")
            if function in self.unreturned:
                words.append("(entered without a return)")
            style = "dashed" if len(words) > told else "solid"
            look = [f"label={quoted(*words)};", f'style="filled,rounded,{style}"; color="#888888"; fillcolor="#eef2f7";']
        asked, nodes = asked_of(self.trace.route), []
        for one in variables:
            frame = ", peripheries=2, penwidth=1.5" if one == asked else ""
            nodes.append(f"{self.nodes[one]} [label={quoted(shown(str(one)))}{frame}];")
        return [f"subgraph cluster_{self.name}b{number} {{", *("  " + line for line in [*look, "fontsize=11;", *nodes]), "}"]

    def lines(self):
        title = quoted(*(shown(line) for line in title_of(self.trace.route)))
        made = [f"label={title};", 'labelloc=t; labeljust=l; style=solid; color="#bbbbbb"; margin=14;', *self.ends]
        for number, (function, variables) in enumerate(self.boxes.items(), 1):
            made += self.box_lines(function, variables, number)
        return [f"subgraph cluster_{self.name} {{", *("  " + line for line in made), *("  " + line for line in self.edges), "}"]


def dot_of(traces, owners, nothing=""):
    """The picture of routes with their numbers; `nothing` is what is said where there are none."""
    made = [HEAD.rstrip("\n")]
    if not traces:
        made.append(f"  graph [label={quoted(shown(nothing))}, labelloc=t];")
    for number, trace in traces:
        made += ["  " + line for line in Picture(f"p{number}", trace, owners).lines()]
    return "\n".join([*made, "}"]) + "\n"
