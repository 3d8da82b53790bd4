"""The text that cqual reads: lines and tokens by the places that line markers give them, and the bodies of functions."""

import bisect
import re
from typing import NamedTuple

from .reports import Place

MARKER = re.compile(r'#(?:line)? *(\d+)(?: +"((?:[^"\\\n]|\\.)*)")?((?: +\d)*)[ \t]*\Z')
ESCAPE = re.compile(r"\\([0-7]{3}|.)")
TOKEN = re.compile(
    r"""(?P<space>[ \t\r\n\f\v]+|/\*.*?\*/|//[^\n]*|\\\n)
    |(?P<directive>^[ \t]*\#[^\n]*)
    |(?P<name>[A-Za-z_$][\w$]*)
    |(?P<number>\.?\d(?:[eEpP][+-]|[\w.])*)
    |(?P<text>"(?:[^"\\\n]|\\.)*"?)
    |(?P<character>'(?:[^'\\\n]|\\.)*'?)
    |(?P<sign>->|\.\.\.|<<=?|>>=?|[-+*/%&|^<>=!]=|&&|\|\||\+\+|--|.)""",
    re.X | re.S | re.M,
)
ATTRIBUTES = {"__attribute__", "__attribute", "__asm__", "__asm", "asm", "__extension__", "__declspec"}
TYPE_WORDS = set(
    "void char short int long float double signed unsigned _Bool struct union enum const volatile restrict static extern register "
    "auto inline typedef __inline __inline__ __restrict __const __volatile__ _Complex _Noreturn typeof __typeof__".split()
)
# words of statements, behind which a name with `(` is a call
STATEMENT_WORDS = set("return else do case goto sizeof if while for switch default break continue".split())


class Token(NamedTuple):
    kind: str
    text: str
    start: int


class Body(NamedTuple):
    """A function's body: the tokens from `{` on, and the one behind its `}`."""

    name: str
    first: int
    end: int


def file_of(quoted):
    """The name of a file in a line marker."""
    return ESCAPE.sub(lambda found: chr(int(found[1], 8)) if len(found[1]) == 3 else found[1], quoted)


class Text:
    """A text of C with line markers. Finds its lines by place; its tokens and bodies when they are asked for.

    The tokens are those outside of system headers, which are most of a text, unless `whole` says otherwise.
    """

    def __init__(self, name, text, whole=False):
        self.text, self.whole = text, whole
        self.starts, self.origins, self.lines = [], [], {}
        self._tokens = self._bodies = None
        file, line, in_system, start = name, 1, False, 0
        for raw in text.split("\n"):
            marker = MARKER.match(raw) if raw.startswith("#") else None
            self.starts.append(start)
            self.origins.append((file, line, in_system))
            if marker:
                line = int(marker[1])
                if marker[2] is not None:
                    file, in_system = file_of(marker[2]), "3" in marker[3]
            else:
                self.lines.setdefault((file, line), []).append(len(self.starts) - 1)
                line += 1
            start += len(raw) + 1

    def place_at(self, offset):
        number = bisect.bisect_right(self.starts, offset) - 1
        file, line, _ = self.origins[number]
        return Place(file, line, offset - self.starts[number] + 1)

    def is_system_at(self, offset):
        """Whether a system's header stands there."""
        return self.origins[bisect.bisect_right(self.starts, offset) - 1][2]

    def line_numbered(self, number):
        end = self.starts[number + 1] - 1 if number + 1 < len(self.starts) else len(self.text)
        return self.text[self.starts[number] : end]

    def offset_of(self, place, name=None):
        """Where the place stands in the text; of several lines of one number the one that has the name there. None where nothing does."""
        found = None
        for number in self.lines.get((place.file, place.line), []):
            line = self.line_numbered(number)
            if place.column <= len(line):
                offset = self.starts[number] + place.column - 1
                if name is not None and self.text.startswith(name, offset):
                    return offset
                if found is None or not line[place.column - 1].isspace():
                    found = offset
        return found

    def token_at(self, place, name=None):
        """The token that begins at the place, or an empty text."""
        offset = self.offset_of(place, name)
        found = TOKEN.match(self.text, offset) if offset is not None else None
        return found[0] if found and found.lastgroup not in ("space", "directive") else ""

    def line_at(self, place, name=None):
        """The line of this text that has the place, or None."""
        offset = self.offset_of(place, name)
        if offset is None:
            return None
        return self.line_numbered(bisect.bisect_right(self.starts, offset) - 1)

    @property
    def tokens(self):
        if self._tokens is None:
            self._tokens = []
            for start, end in self.spans():
                for found in TOKEN.finditer(self.text, start, end):
                    if found.lastgroup not in ("space", "directive"):
                        self._tokens.append(Token(found.lastgroup, found[0], found.start()))
        return self._tokens

    def spans(self):
        """Where the text of the program stands: the parts between those of system headers."""
        if self.whole:
            return [(0, len(self.text))]
        made, begun = [], None
        for start, (_, _, in_system) in zip(self.starts, self.origins):
            if in_system and begun is not None:
                made.append((begun, start))
                begun = None
            elif not in_system and begun is None:
                begun = start
        return made + ([(begun, len(self.text))] if begun is not None else [])

    def index_of(self, offset):
        """The number of the first token from there on."""
        return bisect.bisect_left(self.tokens, offset, key=lambda token: token.start)

    @property
    def bodies(self):
        if self._bodies is None:
            self._bodies = list(bodies_of(self))
        return self._bodies

    def function_at(self, place):
        """The name of the function in whose body or declarator the place stands, or an empty text."""
        offset = self.offset_of(place)
        if offset is None:
            return ""
        number = self.index_of(offset)
        for body in self.bodies:
            if number < body.end and (number >= body.first or self.declares(body, number)):
                return body.name
        return ""

    def declares(self, body, number):
        """Whether no other declaration ends between the token and the body."""
        return all(token.text not in (";", "}") for token in self.tokens[number : body.first])

    def parameters_at(self, variable):
        """The names of the parameters of the function that is declared there, None for one without a name."""
        offset = self.offset_of(variable.place, variable.name)
        if offset is None or not self.text.startswith(variable.name, offset):
            return []
        at = self.index_of(offset) + 1
        while at < len(self.tokens) and self.tokens[at].text == ")":
            at += 1
        if at >= len(self.tokens) or self.tokens[at].text != "(":
            return []
        return [parameter_name(part) for part in parts_of(self.tokens[at + 1 : closing(self.tokens, at)])]


def closing(tokens, at):
    """The number of the token that closes what is opened at this one; the last where nothing does."""
    pairs = {"(": ")", "[": "]", "{": "}"}
    opens, closes, depth = tokens[at].text, pairs[tokens[at].text], 0
    for number in range(at, len(tokens)):
        if tokens[number].text == opens:
            depth += 1
        elif tokens[number].text == closes:
            depth -= 1
            if depth == 0:
                return number
    return len(tokens) - 1


def parts_of(tokens):
    """The lists between commas that stand in no brackets."""
    made, depth = [[]], 0
    for token in tokens:
        if token.text in "([{":
            depth += 1
        elif token.text in ")]}":
            depth -= 1
        if token.text == "," and depth == 0:
            made.append([])
        else:
            made[-1].append(token)
    return made if made[0] else []


def parameter_name(tokens):
    """The name that a parameter declares, or None: the last name outside of brackets behind a type, or that of `(*name)`."""
    depth, names = 0, []
    for number, token in enumerate(tokens):
        if token.text in ("(", "["):
            depth += 1
            if token.text == "(" and number + 2 < len(tokens) and tokens[number + 1].text == "*" and tokens[number + 2].kind == "name":
                return tokens[number + 2].text
        elif token.text in (")", "]"):
            depth -= 1
        elif token.kind == "name" and depth == 0 and not token.text.startswith("$"):
            names.append(token.text)
    if not names or names[-1] in TYPE_WORDS or names[-1] in ATTRIBUTES:
        return None
    tagged = len(names) >= 2 and names[-2] in ("struct", "union", "enum")
    real = [name for name in names if name not in ("const", "volatile", "restrict", "register", "__restrict", "__const")]
    return None if tagged or len(real) < 2 else names[-1]


def bodies_of(text):
    """The bodies of functions at file scope."""
    tokens, at, candidate, kept = text.tokens, 0, None, False
    while at < len(tokens):
        word = tokens[at].text
        if word == "(":
            end = closing(tokens, at)
            before = tokens[at - 1] if at else None
            if before is not None and before.kind == "name" and before.text not in ATTRIBUTES | TYPE_WORDS and candidate is None:
                candidate = before.text
                behind = tokens[end + 1] if end + 1 < len(tokens) else None
                # a declaration behind the parameters is one of them, in the form before C89
                kept = behind is not None and behind.kind == "name" and behind.text not in ATTRIBUTES
            at = end + 1
        elif word == "{":
            end = closing(tokens, at)
            # behind a name or an equals sign stands a struct or an initialiser
            if candidate is not None and tokens[at - 1].text in (")", ";"):
                yield Body(candidate, at, end + 1)
                candidate, kept = None, False
            at = end + 1
        elif word == "[":
            at = closing(tokens, at) + 1
        else:
            if word in (";", "=", ",") and not kept:
                candidate = None
            at += 1
