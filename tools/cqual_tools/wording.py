"""Says in words what a report says in variables: what a variable is, what an error is, and what a step does."""

import re

from .reports import Variable

# a variable of a model that stands for an argument: cqual_format_of_printf
ARGUMENT = re.compile(r"cqual_(\w+)_of_(\w+)\Z")
# what is said of an element that exceeds a bound: where it flows into something, and where the bound is a use without a word
SENTENCES = {
    ("$tainted", "$untainted"): ("tainted data reaches {what}", "tainted data is used here"),
    ("$user", "$kernel"): ("a pointer of a user program reaches {what}", "a pointer of a user program is followed here"),
    ("const", "$nonconst"): ("a place that is const reaches {what}, which is written to", "a place that is const is written to here"),
}
UNNAMED = {"(": "what is cast", "?": "the choice", "{": "the initialiser", "[": "the element", "*": "what is followed"}


def plain(element):
    """An element without its sign: `$tainted` is tainted."""
    return element.lstrip("$")


def called(variable):
    """The function that a variable is an argument or the result of, or an empty text."""
    argument = ARGUMENT.match(variable.name)
    if argument:
        return argument[2]
    return variable.name if part_of(variable) is not None else ""


def part_of(variable):
    """The first step into a function's type: ('1',), ('res',), ('etc',) or None."""
    for step in variable.steps:
        if step != "in":
            return step
    return None


def name_of(variable):
    return UNNAMED.get(variable.name, variable.name)


def whole_name(variable):
    """Which name a variable is of, in words."""
    return f"`{variable.name}`" if variable.name not in UNNAMED else UNNAMED[variable.name]


def described(variable: Variable, parameters=()):
    """What a variable is: a name, the result of a function, or one of its arguments, by the parameter's name where that is known."""
    part, argument = part_of(variable), ARGUMENT.match(variable.name)
    if argument:
        return f"the {argument[1]} of {argument[2]}"
    if part is None:
        return whole_name(variable)
    if part == "res":
        return f"the result of {name_of(variable)}"
    if part == "etc":
        return f"the further arguments of {name_of(variable)}"
    number = int(part)
    if 0 < number <= len(parameters) and parameters[number - 1]:
        return f"the {parameters[number - 1]} of {name_of(variable)}"
    return f"argument {part} of {name_of(variable)}"


def exceeded(failure, what, is_use=False):
    """The sentence of an error. `what` is what is reached, in words; a use is a bound without a word, such as that of a write."""
    sentences = SENTENCES.get((failure.element, failure.bound))
    if sentences is None:
        place = "here" if is_use else f"in {what}"
        return f"{failure.element} exceeds {failure.bound} {place}"
    return sentences[1] if is_use else sentences[0].format(what=what)


def sink_of(failure):
    """The variable of the bound, which says what is reached; None in a report without a path to it."""
    steps = failure.steps()
    last = steps[-1][0] if steps else None
    return last.source if last is not None and last.kind == "bound" else None


def cause_of(failure):
    """The variable of the constant that a path begins with, or None."""
    steps = failure.steps()
    return steps[0][0].target if steps and steps[0][0].kind == "const" else None


def stable_name(variable):
    """A variable without its place, for what must not change where lines move."""
    return "" if variable is None else ".".join((variable.name, *variable.steps))
