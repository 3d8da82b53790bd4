"""Reads the definitions of this repository: files of specs and files of Rust, each definition with the names that it uses.

`Repository` reads files when they are asked for. Of a definition `file.uses(definition)` gives the definitions that it uses, the names of
libraries, the names that it binds itself and that stand for definitions too, and the names of which nothing is known.
"""
import os
import re

# what the logic has without an import
BUILT_IN = set("Type Unit IsProp record let in where mutual module abbrev unfoldable pub data if then else do elim tt infix infixl infixr".split())
SIGNS = set("→ × ≡ ≢ ∷ = : λ _ | ⊥ ⊤ ↔ ⊎ < ≤ > ≥ + - * ^ ++ && || ∘ ∃ ∀ >>= ∈ ∉ { } ;".split())
STRING = re.compile(r'"(?:\\.|[^"\\])*"')
TOKEN = re.compile(r"[^\s(){}\[\];,\"]+")
IMPORT = re.compile(r"^\s*(?:pub )?(?:ghost )?use ([A-Za-z]\w*\.[^\s;{}]+?)(?:\.\{([^}]*)\}| as (\S+?))?;?\s*$", re.S)
RUST_ITEM = re.compile(r"^(?:pub(?:\([\w:]+\))? )?(struct|enum|trait|union|type|const) (\w+)")
RUST_IMPL = re.compile(r"^impl\b.*\bfor (\w+)")


class Fault(Exception):
    """The script cannot tell what is reached."""


class Definition:
    """A definition with the lines that it has: of a specs file, or a Rust item with its ghost items."""

    def __init__(self, file, name, kind, lines, heads=()):
        self.file, self.name, self.kind = file, name, kind
        # pairs of line number and text, with the comments above it; the lines of the modules and `mutual`s that it stands in
        self.lines, self.heads = lines, heads
        self.names = {name}
        # for a data type its constructors, for a record its fields, each with its lines
        self.parts = []

    def line(self):
        return next(number for number, text in self.lines if not is_comment(text))

    def code(self, left_out=frozenset()):
        """The lines of code, without those of the parts that are left out."""
        gone = {number for name, lines in self.parts if name in left_out for number, _ in lines}
        return [(number, text) for number, text in self.lines if number not in gone]

    def __repr__(self):
        return f"{self.file.path}:{self.line()}: {self.name}"


def is_comment(text):
    return text.lstrip().startswith(("--", "//", "#["))


def indent_of(text):
    return len(text) - len(text.lstrip(" "))


def plain(text):
    """The text without strings and comments."""
    text = STRING.sub(" ", text)
    return re.sub(r"(^|\s)--.*|//.*", " ", text, flags=re.M)


def words_of(text):
    """The names in a text, each as the list of its parts between dots, with whether it is a field's or a bound name in place of a use."""
    text = re.sub(r"([{;]\s*)([^\s{};=]+)(\s*=)(?=\s)", r"\1\3", text)
    for token in TOKEN.findall(text):
        # behind a closing bracket it is a field
        if token.startswith("."):
            continue
        token = token.strip("λ&*'`!?")
        parts = [part.strip("«»") for part in token.split(".")]
        parts = [part for part in parts if part]
        if parts and parts[0] not in SIGNS and not parts[0][0].isdigit():
            yield parts


class SpecsFile:
    """A file of definitions: what it imports, and its definitions by name."""

    def __init__(self, repository, path):
        self.repository, self.path = repository, path
        self.imported, self.aliases, self.passed_on = {}, {}, []
        self.defined, self.definitions, self.head = {}, [], []
        lines = list(enumerate(repository.read(path).split("\n"), 1))
        while lines and is_comment(lines[0][1]):
            self.head.append(lines.pop(0))
        self.read_block(lines, 0, ())

    def add(self, definition):
        self.definitions.append(definition)
        for name in definition.names:
            self.defined.setdefault(name, []).append(definition)

    def read_import(self, text):
        found = IMPORT.match(text)
        if not found:
            raise Fault(f"{self.path}: an import that is not understood: {text.strip()}")
        path, names, alias = found.groups()
        if names is None:
            self.aliases.setdefault(alias or path.split(".")[-1], set()).add(path)
            return
        for name in names.replace("\n", " ").split(","):
            if name.strip():
                known, _, here = name.strip().partition(" as ")
                self.imported.setdefault((here or known).strip(), set()).add((path, known.strip()))
                if text.lstrip().startswith("pub use"):
                    self.passed_on.append(((here or known).strip(), path, known.strip()))

    def read_block(self, lines, indent, heads):
        """Reads the items that begin at the indent."""
        above, at = [], 0
        while at < len(lines):
            number, text = lines[at]
            if not text.strip():
                at += 1
                continue
            if indent_of(text) != indent:
                raise Fault(f"{self.path}:{number}: a line that is not understood")
            if is_comment(text) or re.match(r"\s*infix[lr]? ", text):
                # those between two definitions are the second's, as a precedence is; those that begin the file are its head
                above.append((number, text))
                at += 1
                continue
            end = at + 1
            while end < len(lines) and (not lines[end][1].strip() or indent_of(lines[end][1]) > indent
                                        or lines[end][1].lstrip()[0] in ")}]"):
                end += 1
            item = self.without_end(lines[at:end])
            words = text.split()
            if "use" in words[:3] and words[0] in ("use", "pub", "ghost") and words[1 if words[0] != "use" else 0] in ("use", "ghost"):
                self.read_import("\n".join(line for _, line in item))
            elif words[0] == "module" or words[-1] == "mutual" or words == ["mutual"]:
                head = item[0]
                if words[0] == "module" and not text.rstrip().endswith("where"):
                    raise Fault(f"{self.path}:{number}: a module that is not understood")
                inner = [line for line in item[1:] if line[1].strip()]
                if inner:
                    self.read_block(item[1:], indent_of(inner[0][1]), heads + (head,))
            elif words[:2] == ["pub", "mod"] or words[0] == "mod":
                pass
            else:
                end = self.read_definition(lines, at, end, indent, above, heads)
            above, at = [], end

    @staticmethod
    def without_end(lines):
        lines = list(lines)
        while lines and not lines[-1][1].strip():
            lines.pop()
        return lines

    def read_definition(self, lines, at, end, indent, above, heads):
        """Reads one definition; tells where the next item begins."""
        number, text = lines[at]
        words = text.split()
        while words and words[0] in ("unfoldable", "opaque", "abbrev", "pub", "private"):
            words.pop(0)
        kind = words[0] if words[0] in ("record", "data") else "function"
        name = words[1] if kind != "function" else words[0]
        if kind == "function" and (len(words) < 2 or words[1] != ":"):
            raise Fault(f"{self.path}:{number}: a line that is not understood: {text.strip()}")
        if kind == "function":
            end = self.behind_clauses(lines, end, indent, name)
        body = self.without_end(lines[at:end])
        made = Definition(self, name, kind, above + body, heads)
        if "◌" in name:
            made.names |= {part for part in name.split("◌") if part}
        if kind != "function":
            self.read_parts(made, body[1:], kind)
        self.add(made)
        return end

    def behind_clauses(self, lines, end, indent, name):
        """Where the clauses of a function end, which begin with its name, comments between them or not."""
        at = end
        while at < len(lines):
            text = lines[at][1]
            if not text.strip() or (is_comment(text) and indent_of(text) == indent):
                at += 1
                continue
            inside = indent_of(text) > indent or text.lstrip()[0] in ")}]"
            clause = indent_of(text) == indent and (text.split()[0] == name or ("◌" in name and f" {name.strip('◌')} " in text))
            if not (inside or clause):
                break
            at += 1
            end = at
        return end

    def read_parts(self, made, lines, kind):
        inner = [line for line in lines if line[1].strip() and not is_comment(line[1])]
        depth = min((indent_of(text) for _, text in inner), default=0)
        above = []
        for number, text in lines:
            begins = text.strip() and not is_comment(text) and indent_of(text) == depth and " : " in text
            if is_comment(text):
                above.append((number, text))
            elif begins:
                names = text.split(" : ")[0].split()
                names = [name for name in names if name != "pub"]
                made.parts.append((names[0], above + [(number, text)]))
                above = []
                if kind == "data":
                    made.names.update(names)
            elif text.strip() and made.parts:
                made.parts[-1][1].append((number, text))

    def found(self, name):
        """What a name means here: definitions of the repository, and names of libraries."""
        found, library = list(self.defined.get(name, ())), []
        for path, known in self.imported.get(name, ()):
            more, others = self.repository.meaning(path, known)
            found += more
            library += others
        return found, library

    def meanings(self, parts):
        """The same of a name with dots, and whether anything was found."""
        if parts[0] == "Rattle":
            path, name = ".".join(parts[:-1]), parts[-1]
            return self.repository.meaning(path, name)
        found, library = self.found(parts[0])
        if len(parts) > 1:
            for path in self.aliases.get(parts[0], ()):
                more, others = self.repository.meaning(path, parts[1])
                found += more
                library += others
        return found, library

    def text_of(self, definition, left_out):
        return "\n".join(text for _, text in definition.code(left_out)) + "\n" + "\n".join(text for _, text in definition.heads)

    def uses(self, definition, left_out=frozenset()):
        """The definitions that it uses, the names of libraries, the names that are bound too, and those that are nothing."""
        text = plain(self.text_of(definition, left_out))
        bound = bound_in(definition, text)
        used, library, twice, nothing = {}, set(), {}, set()
        for parts in words_of(text):
            found, others = self.meanings(parts)
            library.update(others)
            for one in found:
                if one is not definition:
                    used.setdefault(one)
                    if parts[0] in bound and len(parts) == 1:
                        twice.setdefault(parts[0], []).append(one)
            known = found or others or parts[0] in bound or parts[0] in BUILT_IN or parts[0] in self.aliases
            if not known and any(sign.isalpha() for sign in parts[0]):
                nothing.add(parts[0])
        return used, library, twice, nothing


def bound_in(definition, text):
    """The names that a definition binds, as far as its form tells: variables of clauses, of binders and of `λ` and `let`, and parts."""
    bound = set(definition.names) | {name for name, _ in definition.parts}
    for group in re.findall(r"[({]([^(){}:]+?)\s:\s", text):
        bound.update(group.split())
    for group in re.findall(r"λ\s*([^.(){}]+)\.", text):
        bound.update(group.split())
    for group in re.findall(r"\blet\s+(\S+)\s|;\s+(\S+)\s+=\s", text):
        bound.update(group)
    for group in re.findall(r"^\s*(.+?) ←\s", text, re.M):
        bound.update(parts[0] for parts in words_of(group))
    if definition.kind == "function":
        # clauses, and those of what stands behind `where`
        for line in text.split("\n"):
            if re.search(r"\s[=:](\s|$)", line):
                for parts in words_of(re.split(r"\s[=:](?:\s|$)", line)[0]):
                    bound.update(parts[:1])
    if definition.kind == "record":
        for group in re.findall(r"^\s+pub (.+?) :\s", text, re.M):
            bound.update(group.split())
    return bound


class RustFile(SpecsFile):
    """A file of Rust items: types, traits and constants, and the `ghost` items of what implements a trait for a type."""

    def __init__(self, repository, path):
        self.repository, self.path = repository, path
        self.imported, self.aliases, self.passed_on = {}, {}, []
        self.defined, self.definitions, self.head = {}, [], []
        self.rust, self.handed_on = {}, {}
        self.crate = path.split("/")[1]
        text = repository.read(path)
        self.lines = text.split("\n")
        for found in re.finditer(r"^[ ]*(?:pub )?ghost use [^;]*;", text, re.M):
            self.read_import(found[0])
        for found in re.finditer(r"^[ ]*(?P<pub>pub(?:\([\w:]+\))? )?use (?P<path>[^;]*);", text, re.M):
            self.read_rust_import(found["path"], bool(found["pub"]))
        self.read_items()

    def read_rust_import(self, path, handed_on):
        path = re.sub(r"\s+", " ", path)
        first, _, rest = path.partition("::")
        crate = self.crate if first in ("crate", "super", "self") else first
        for name in re.findall(r"\w+(?: as \w+)?", rest):
            known, _, here = name.partition(" as ")
            self.rust.setdefault(here or known, set()).add((crate, known))
            if handed_on:
                self.handed_on.setdefault(here or known, set()).add((crate, known))

    def item(self, at):
        """The lines of the item that begins at a line, without the body of functions of a trait."""
        depth, lines = 0, []
        while at < len(self.lines):
            text = self.lines[at]
            lines.append((at + 1, text))
            bare = re.sub(r"//.*", "", STRING.sub("", text))
            depth += bare.count("{") - bare.count("}")
            if depth == 0 and (bare.rstrip().endswith((";", "}"))):
                return lines
            at += 1
        raise Fault(f"{self.path}: an item without an end")

    def read_items(self):
        of_name, at = {}, 0
        while at < len(self.lines):
            found, impl = RUST_ITEM.match(self.lines[at]), RUST_IMPL.match(self.lines[at])
            if found:
                above, up = [], at - 1
                while up >= 0 and self.lines[up].lstrip().startswith(("///", "#[")):
                    above.insert(0, (up + 1, self.lines[up]))
                    up -= 1
                lines = self.item(at)
                made = Definition(self, found[2], found[1], above + lines)
                of_name[found[2]] = made
                self.add(made)
                at += len(lines)
            elif impl:
                lines = self.item(at)
                if any(re.match(r"\s*ghost \w+ =", text) for _, text in lines):
                    self.repository.ghosts.setdefault((self.crate, impl[1]), []).append(Definition(self, impl[1], "impl", lines))
                at += len(lines)
            else:
                at += 1

    def meanings(self, parts):
        found, library = super().meanings(parts)
        names = [name for part in parts for name in part.split("::")]
        for name in names:
            for known in self.defined.get(name, ()):
                found.append(known)
            for crate, known in self.rust.get(name, ()):
                if self.repository.has_crate(crate):
                    found += self.repository.rust_items(crate, known)
                else:
                    library.append(f"{crate}: {known}")
        return found, library

    def uses(self, definition, left_out=frozenset()):
        text = plain("\n".join(text for _, text in definition.lines if not is_comment(text)))
        text = re.sub(r"\bghost use [^;]*;", " ", text)
        used, library = {}, set()
        for parts in words_of(text.replace("<", " ").replace(">", " ").replace("&", " ")):
            parts = [part.strip(":") for part in parts]
            found, others = self.meanings([part for part in parts if part] or ["_"])
            library.update(others)
            used.update((one, None) for one in found if one is not definition)
        for one in self.repository.ghosts.get((self.crate, definition.name), ()):
            if one is not definition:
                used.setdefault(one)
        return used, library, {}, self.unknown_in(definition, text)

    def unknown_in(self, definition, text):
        """The names in clauses and `ghost` items of which it is not known what they are."""
        clauses, rest, at = [], [], 0
        for found in re.finditer(r"\b(?:ensures|requires|ghost)\b[^{};]*\{", text):
            if found.start() < at:
                continue
            end, depth = found.end(), 1
            while depth and end < len(text):
                depth += {"{": 1, "}": -1}.get(text[end], 0)
                end += 1
            clauses.append(text[found.end():end - 1])
            rest.append(text[at:found.end()])
            at = end
        said, known = "\n".join(clauses), set(re.findall(r"\w+", "\n".join(rest + [text[at:]]))) | {"result", "self", "Self"}
        known |= bound_in(definition, said) | BUILT_IN
        unknown = {parts[0] for parts in words_of(said) if parts[0] not in known and parts[0] not in self.aliases and not any(self.meanings(parts))}
        return {name for name in unknown if any(sign.isalpha() for sign in name)}


class Repository:
    """The files below a folder, read when they are asked for."""

    def __init__(self, top, start):
        self.top, self.start, self.files, self.ghosts, self.items = top, start, {}, {}, {}

    def read(self, path):
        with open(os.path.join(self.top, path), encoding="utf-8") as file:
            return file.read()

    def has_crate(self, crate):
        return os.path.isdir(os.path.join(self.top, "crates", crate))

    def specs_file(self, path):
        if path not in self.files:
            self.files[path] = SpecsFile(self, path)
        return self.files[path]

    def rust_files(self, crate):
        if crate not in self.items:
            source, found = os.path.join(self.top, "crates", crate, "src"), []
            for folder, _, names in sorted(os.walk(source)):
                found += [os.path.relpath(os.path.join(folder, name), self.top) for name in sorted(names) if name.endswith(".rt")]
            self.items[crate] = [RustFile(self, path) for path in found]
        return self.items[crate]

    def rust_items(self, crate, name, seen=()):
        """The items of a crate with a name: its own, or those of another crate that it hands on."""
        found = [one for file in self.rust_files(crate) for one in file.defined.get(name, ())]
        if not found and crate not in seen:
            for file in self.rust_files(crate):
                for other, known in file.handed_on.get(name, ()):
                    if other != crate and self.has_crate(other):
                        found += self.rust_items(other, known, (*seen, crate))
        return found

    def meaning(self, path, name):
        """The definitions that a name of a module is, or the name of a library."""
        parts = path.split(".")
        crate = parts[1]
        if parts[0] != "Rattle" or not self.has_crate(crate):
            return [], [f"{'.'.join(parts).removeprefix('Rattle.')}: {name}"]
        if parts[3:4] == ["declared"]:
            for known in parts[4:] + [name]:
                found = self.rust_items(crate, known)
                if found:
                    return found, []
            raise Fault(f"there is no Rust item of {path}.{name}")
        for count in range(len(parts), 3, -1):
            file = "crates/%s/specs/%s.antt" % (crate, "/".join(parts[3:count]))
            if os.path.isfile(os.path.join(self.top, file)):
                there = self.specs_file(file)
                inner = [*parts[count:], name][0]
                found = list(there.defined.get(inner, ()))
                for here, passed, known in there.passed_on:
                    if here == inner:
                        more, others = self.meaning(passed, known)
                        if others:
                            return more, others
                        found += more
                if not found:
                    raise Fault(f"{file} has no {inner}, which is imported")
                return found, []
        raise Fault(f"there is no file of {path}")

    def contract(self, clauses=None):
        """The contract of the function that is begun with: its head and its clauses, or some of them."""
        path, name = self.start
        file = next(one for one in self.rust_files(path.split("/")[1]) if one.path == path)
        begin = next(at for at, text in enumerate(file.lines) if re.match(r"pub fn %s\b" % re.escape(name), text))
        end = next(at for at in range(begin, len(file.lines)) if file.lines[at] == "{")
        lines = list(enumerate(file.lines[begin:end], begin + 1))
        if clauses is not None:
            kept, inside = [], True
            for number, text in lines:
                found = re.match(r"\s*(?:ensures|requires) (\w+)", text)
                if found:
                    inside = found[1] in clauses
                if inside and not is_comment(text):
                    kept.append((number, text))
            lines = kept
        return Definition(file, name, "contract", lines)
