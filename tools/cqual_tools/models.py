"""Models: macros that say more of a call than a prelude can, put over the calls of a text that was preprocessed.

A model is a C file of function-like macros, each named as the function whose calls it replaces, with declarations of what they use. What is
named `cqual_..` is its own. Since only calls inside bodies of functions of the source are replaced, by a second run of the preprocessor, no
header and no `config.h` sees a macro.
"""

import os
import re
import subprocess

from .reports import Place
from .texts import STATEMENT_WORDS, TYPE_WORDS, Text, closing, parts_of

DEFINE = re.compile(r"#define ([A-Za-z_$][\w$]*)(\(.*)?")
SEEN = re.compile(r"\bCQUAL_SEEN_([A-Za-z_]\w*)")
OWN = "cqual_"
CALL = "cqual_call_of_"
MOST_NESTED = 30


class ModelError(Exception):
    """A model that cannot be used; its text is one line for whoever named it."""


class Model:
    """A model as the preprocessor reads it: the macros over calls, those of its own, and its declarations."""

    def __init__(self, shown, path, compiler, names):
        self.shown = shown
        self.calls, self.helpers, declarations = {}, [], []
        where = Place(shown, 1, 1)
        for line in preprocessed_model(path, compiler, names).split("\n"):
            marker = re.match(r'# (\d+) "(.*?)"', line)
            define = DEFINE.match(line)
            if marker:
                where = Place(marker[2], int(marker[1]), 1)
                declarations.append(f'# {marker[1]} "{shown}"' if marker[2] == path else "")
            elif define and define[1].startswith(OWN):
                self.helpers.append(line)
                declarations.append("")
            elif where.file != path:
                if line.strip() and not where.file.startswith("<") and not line.startswith("#"):
                    raise ModelError(f"model {shown} includes {where.file}: put that between #ifndef __CQUAL_CALLS__ and #endif")
            elif define:
                self.take(define)
                declarations.append("")
            elif not line.startswith("#undef"):
                declarations.append(line)
        self.declarations = "\n".join(declarations)

    def take(self, define):
        """A macro over a call."""
        if define[2] is None:
            raise ModelError(f"model {self.shown} defines {define[1]} without parameters: only calls can be replaced")
        else:
            self.calls[define[1]] = define[2]

    def definitions(self):
        return "".join(line + "\n" for line in self.helpers) + "".join(
            f"#define {CALL}{name}{rest}\n" for name, rest in self.calls.items()
        )


def preprocessed_model(path, compiler, names):
    """The text of a model with its macros; CQUAL_SEEN_name is defined where the source has that name."""
    with open(path, encoding="latin-1") as file:
        asked = set(SEEN.findall(file.read()))
    flags = [f"-DCQUAL_SEEN_{name}=1" for name in sorted(asked & names)]
    words = [*compiler, "-E", "-dD", "-undef", "-D__CQUAL__=1", "-D__CQUAL_CALLS__=1", *flags, "-x", "c", path]
    ran = subprocess.run(words, stdout=subprocess.PIPE, stderr=subprocess.PIPE, check=False)
    if ran.returncode:
        said = ran.stderr.decode("utf-8", "replace").splitlines()
        raise ModelError(f"model {path}: {said[0] if said else 'the preprocessor failed'}")
    return ran.stdout.decode("latin-1")


def takes(rest, tokens, at):
    """Whether a macro, by the text behind its name, takes the arguments of the call whose `(` is that token.

    A call with others is one of a function that only has the name of that of the model.
    """
    parameters = [name.strip() for name in rest[1 : rest.index(")")].split(",") if name.strip()]
    given = len(parts_of(tokens[at + 1 : closing(tokens, at)]))
    if parameters and parameters[-1].endswith("..."):
        return given >= len(parameters) - 1
    return given == len(parameters)


def calls_in(text, calls):
    """The tokens that call one of the functions of a model inside bodies of the source, which has no function of that name itself."""
    wanted = set(calls) - {body.name for body in text.bodies}
    for body in text.bodies:
        for at in calls_in_body(text.tokens, body, wanted):
            if takes(calls[text.tokens[at].text], text.tokens, at + 1):
                yield at


def calls_in_body(tokens, body, wanted):
    """The calls in one body: a declaration of the function there is none, and a member of that name is none."""
    first, depth, after_equals = body.first + 1, 0, False
    for at in range(body.first, body.end):
        word = tokens[at].text
        if word in (";", "{", "}"):
            first, depth, after_equals = at + 1, 0, False
        elif word in ("(", "["):
            depth += 1
        elif word in (")", "]"):
            depth -= 1
        elif word == "=":
            after_equals = True
        elif word == "," and depth == 0:
            after_equals = False
        elif word in wanted and at + 1 < body.end and tokens[at + 1].text == "(" and tokens[at - 1].text not in (".", "->"):
            if depth or after_equals or not is_declared(tokens, first, at):
                yield at


def is_declared(tokens, first, at):
    """Whether the name is that of a declarator of the statement that begins at `first`."""
    if tokens[first].text in TYPE_WORDS or tokens[first].text in ("__extension__", "__attribute__"):
        return True
    before = tokens[at - 1]
    if before.kind == "name" and before.text not in STATEMENT_WORDS:
        return True
    # `FILE *popen(..);` and `DIR *a, *opendir(..);`, where nothing is assigned: no expression does so
    return tokens[first].kind == "name" and first + 1 < at and tokens[first + 1].text == "*" and before.text in ("*", ",")


class Replaced:
    """The text with the calls of all models replaced, and which names were replaced on which line."""

    def __init__(self, name, raw):
        self.name, self.text, self.names = name, raw, {}
        self.read = Text(name, raw)

    def by(self, shown, path, compiler):
        """Replaces the calls of one model. Where there are none the text stays as it is, without the declarations of the model."""
        if not self.may_call(path):
            return
        model = Model(shown, path, compiler, set(re.findall(r"[A-Za-z_]\w*", self.text)))
        parts, done = [], 0
        for at in calls_in(self.read, model.calls):
            token = self.read.tokens[at]
            place = self.read.place_at(token.start)
            self.names.setdefault((place.file, place.line), []).append(token.text)
            parts += [self.text[done : token.start], CALL]
            done = token.start
        if not parts:
            return
        parts.append(self.text[done:])
        self.text = run_again(compiler, f'{model.declarations}\n# 1 "{self.name}"\n' + "".join(parts), model)
        self.read = Text(self.name, self.text)

    def may_call(self, path):
        """Whether the source has a name that the model defines, as far as that is seen without the preprocessor."""
        with open(path, encoding="latin-1") as file:
            defined = set(re.findall(r"^[ \t]*#[ \t]*define[ \t]+(\w+)", file.read(), re.M))
        return any(token.text in defined for token in self.read.tokens)


def run_again(compiler, text, model):
    """The text behind the preprocessor once more, which knows no macros but those of the model.

    A call that stands in the arguments of another one of the same name may be left, as in each expansion of C: it is replaced in the
    next turn. One that is left by as many turns as calls can be nested keeps its own name.
    """
    words = [*compiler, "-E", "-undef", "-nostdinc", "-x", "c", "-"]
    for _ in range(MOST_NESTED):
        given = (model.definitions() + text).encode("latin-1")
        ran = subprocess.run(words, input=given, stdout=subprocess.PIPE, stderr=subprocess.PIPE, check=False)
        if ran.returncode:
            said = [line for line in ran.stderr.decode("utf-8", "replace").splitlines() if "error" in line]
            raise ModelError(f"model {model.shown}: {said[0] if said else 'the preprocessor failed'}".replace(CALL, ""))
        text = ran.stdout.decode("latin-1")
        if CALL not in text:
            break
    return text.replace(CALL, "")


def replaced(name, raw, models, compiler):
    """The text `raw`, preprocessed from a file of this name, with the calls that the models (pairs of what is shown and a path) replace."""
    made = Replaced(name, raw)
    for shown, path in models:
        made.by(shown, os.path.abspath(path), compiler)
    return made
