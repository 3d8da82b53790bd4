"""Leaves out of a text what no function of it uses: bodies of structs and unions, and declarations of objects that are elsewhere.

The members of a struct that several sources define, and an object that several declare, are one thing in these, which belongs to no function. So a
library of several sources would share what each header defines or declares, whether or not anything is done with it.
"""

from .texts import ATTRIBUTES, closing

ENDS = {";", ",", "[", ":", ")", "}", "="}


def declared_in(tokens):
    """The names that may be declared in some tokens: those behind which a declarator, a width, a value or a list ends."""
    return {token.text for token, behind in zip(tokens, tokens[1:]) if token.kind == "name" and behind.text in ENDS}


def initialisers(tokens):
    """The names in initialisers at file scope."""
    made, at = set(), 0
    while at < len(tokens):
        if tokens[at].text in ("{", "(", "["):
            at = closing(tokens, at)
        elif tokens[at].text == "=":
            begin = at
            while at < len(tokens) and tokens[at].text != ";":
                at = closing(tokens, at) if tokens[at].text in ("{", "(", "[") else at
                at += 1
            made |= {token.text for token in tokens[begin:at] if token.kind == "name"}
        at += 1
    return made


def blank(text):
    return "".join(character if character == "\n" else " " for character in text)


def body_at(tokens, at):
    """Of a `struct` or `union` with a body: the number of its `{`, and whether it has a tag. None where there is no body."""
    at, has_tag = at + 1, False
    while at < len(tokens) and tokens[at].kind == "name":
        if tokens[at].text in ATTRIBUTES and at + 1 < len(tokens) and tokens[at + 1].text == "(":
            at = closing(tokens, at + 1)
        elif tokens[at].text not in ATTRIBUTES:
            has_tag = True
        at += 1
    return (at, has_tag) if at < len(tokens) and tokens[at].text == "{" else None


def pieces_of(text, used):
    """What is left out, in order: where it begins and ends, and what stands in its place."""
    tokens, at, begin = text.tokens, 0, 0
    while at < len(tokens):
        word = tokens[at].text
        if word in ("struct", "union"):
            body = body_at(tokens, at)
            if body:
                end = closing(tokens, body[0])
                if not declared_in(tokens[body[0] : end + 1]) & used:
                    tag = "" if body[1] else f" cqual_unused_{tokens[at].start} "
                    yield tokens[body[0]].start, tokens[end].start + 1, tag
                at = end
        elif word in ("{", "(", "["):
            at = closing(tokens, at)
            # behind the body of a function another declaration begins
            if word == "{":
                begin = at + 1
        elif word == ";":
            declaration = tokens[begin : at + 1]
            if declaration[0].text == "extern" and all(token.text not in ("(", "{", "=") for token in declaration):
                if not declared_in(declaration) & used:
                    yield declaration[0].start, tokens[at].start + 1, ""
            begin = at + 1
        at += 1


def without_unused(text, mentioned):
    """The text without what is neither mentioned in a body of a function nor in an initialiser; each line stays where it is."""
    used, made, at = mentioned | initialisers(text.tokens), [], 0
    for begin, end, tag in pieces_of(text, used):
        made += [text.text[at:begin], tag, blank(text.text[begin:end])]
        at = end
    return "".join(made) + text.text[at:]
