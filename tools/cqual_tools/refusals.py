"""Says in a sentence why a file was refused: by the code and by the token that was found."""

import re

from .texts import STATEMENT_WORDS, TYPE_WORDS

SENTENCES = {
    "F2": "the file is too large",
    "L1": "a name has two entries in a block of the lattice file",
    "L2": "an order line names an element without an entry",
    "L3": "the order has a cycle",
    "L4": "two elements have no join or no meet",
    "L5": "two elements of a block stand at different levels",
    "L6": "a block has over 64 entries",
    "L7": "no lattice file goes on so",
    "L8": "the lattice file has over 16 blocks",
    "L9": "an earlier block has this name",
    "X1": "no token of C begins here",
    "X2": "a string, a character constant or a comment begins here and does not end",
    "X3": "no lattice has the qualifier {token}",
    "S1": "syntax error at {token}",
    "S2": "nested more than 500 levels deep",
    "N1": "{token} has another kind in this scope already",
    "C1": "{token} does not go together with the specifiers before it",
    "O1": "what stands on the left of this assignment cannot be assigned to",
    "H1": "name without a declaration: {token}",
    "H2": "what is followed or indexed is no pointer",
    "H3": "what is called is no function",
    "H4": "no such member, or no struct with a body before it: {token}",
    "H5": "the number of arguments is not that of the parameters",
    "H6": "what is assigned to, counted, or has its address taken is no place",
    "H7": "{token} has a body already",
    "H8": "the type has over 4096 parts",
    "H9": "the operand of this typeof, or the initialiser of this __auto_type, has no type",
    "P1": "a function has a body, in a prelude",
    "P2": "an index word is malformed or stands in the wrong place",
    "Q1": "the program has over 16777216 qualifier variables",
    "G1": "the program has over 67108864 constraints",
}
# words that begin forms which are not read
FORMS = {
    "typeof_unqual": "typeof_unqual is not read", "__va_arg_pack": "_FORTIFY_SOURCE is not read",
    "{": "syntax error at {, perhaps a function inside a function",
}


def sentence_of(code, text, place):
    """What is wrong, by the code of a malformed file; the text is that of the file with the place, or None."""
    letter, _, names = code.partition(" ")
    token = text.token_at(place) if text is not None and place is not None else ""
    if letter == "S1" and token:
        return syntax_sentence(text, place, token)
    sentence = SENTENCES.get(letter, f"refused: {code}").format(token=token or "the name")
    return f"{sentence} ({names})" if names else sentence


def syntax_sentence(text, place, token):
    name = name_before(text, place) if re.match(r"[A-Za-z_$]", token) else ""
    if name:
        return f"syntax error at {token}: is {name} the name of a type here?"
    if token == "[" and line_before(text, place).endswith("["):
        return "attributes in [[..]] are not read"
    return FORMS.get(token, SENTENCES["S1"].format(token=token))


def line_before(text, place):
    line = text.line_at(place)
    return line[: place.column - 1] if line is not None else ""


def name_before(text, place):
    """The name right before a name, or nothing."""
    offset = text.offset_of(place)
    if offset is None:
        return ""
    at = text.index_of(offset)
    if at == 0 or at >= len(text.tokens) or text.tokens[at].start != offset:
        return ""
    both = text.tokens[at - 1 : at + 1]
    return both[0].text if all(it.kind == "name" and it.text not in STATEMENT_WORDS | TYPE_WORDS for it in both) else ""
