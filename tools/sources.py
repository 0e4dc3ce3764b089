"""Reads the functions of the crates, their clauses, and the mutants that change them."""

import os
import re

TOP = os.path.dirname(os.path.dirname(os.path.abspath(__file__)))

PUBLIC = r"(?P<public>pub(?:\([^)]*\))? )?"
HEADER = re.compile(PUBLIC + r"(?:unsafe )?(?P<kind>impl|trait)\b(?P<rest>.*)")
FUNCTION = re.compile(r"(?P<indent> *)" + PUBLIC + r'(?:const |final |unsafe |extern "C" )*fn (?P<name>\w+)')
CLAUSE = re.compile(r"\s*ensures(?: (\w+))? \{")
CONTRACT = re.compile(r"\s*(?:requires|ensures)\b")
ITEM = re.compile(PUBLIC + r"(?:const|static|struct|enum|type|macro_rules!) (?P<name>\w+)")
EXPORT = re.compile(r"^pub use ([^;]+);", re.M)
PUBLIC_MODULE = re.compile(r"^pub mod (\w+);", re.M)
# Programs of the tests, which promise nothing. Neither do the crates of tests.
PROGRAMS = ("mes_double_worlds", "mesosev_examples", "mesosev_guide")


def names_of_crates():
    """Returns the names of crates.txt in its order."""
    with open(f"{TOP}/crates.txt", encoding="utf-8") as file:
        lines = [it.split("#")[0] for it in file]
    return [it.split()[0].rstrip(":") for it in lines if ":" in it]


def is_listed(name):
    """Returns whether a crate promises anything."""
    return not name.endswith("_tests") and name not in PROGRAMS


class Function:
    """A function: its file below src/, its lines counted from 0, its first sentence, and its clauses with their comments.
    `body` is the line in which its body begins, and `trait` the trait that it is declared in or implements."""

    def __init__(self, path, name, lines):
        self.path, self.name = path, name
        self.first, self.body, self.last = lines
        self.is_public, self.summary, self.clauses, self.edits = False, "", [], []
        self.kind, self.trait, self.has_contract, self.has_body = "", "", False, False


class Edit:
    """A mutant: a change of the code that the prover must reject. Its name is that of its file."""

    def __init__(self, folder, name):
        self.name = name.removesuffix(".edit")
        self.is_tried_by_gate = os.path.basename(folder) == "must-fail"
        self.pairs = list(pairs_of(f"{folder}/{name}"))


class Crate:
    """A crate: its functions by file and line, its edits, and the edits that change other items than functions."""

    def __init__(self, name):
        self.name, self.folder = name, f"{TOP}/crates/{name}"
        self.texts = dict(read_texts(f"{self.folder}/src"))
        self.root = self.texts.get("lib.rt") or self.texts["main.rt"]
        self.is_program = "lib.rt" not in self.texts
        self.exports = set(re.findall(r"\w+", " ".join(EXPORT.findall(self.root))))
        self.public_modules = set(PUBLIC_MODULE.findall(self.root))
        self.functions = [it for path in sorted(self.texts) for it in self.functions_of(path)]
        self.edits = [it for folder in ("must-fail", "wrong-bodies") for it in edits_of(f"{self.folder}/{folder}")]
        self.elsewhere = []
        for edit in self.edits:
            self.place(edit)

    def is_exported(self, path, name):
        """Returns whether users of the crate can use this item of the file."""
        module = path.removesuffix(".rt").split("/")[0]
        return self.is_program or name in self.exports or module in self.public_modules

    def functions_of(self, path):
        """Yields the functions of a file."""
        lines = self.texts[path].split("\n")
        owner, kind, trait, is_public_owner = "", "", "", False
        for number, line in enumerate(lines):
            header, found = HEADER.match(line), FUNCTION.match(line)
            if header:
                owner, kind, trait = owner_of(header), kind_of(header), trait_of(header)
                is_public_owner = self.is_exported(path, owner)
            elif line.startswith("}"):
                owner = ""
            elif found:
                yield self.function(path, lines, number, found, (owner, kind, trait, is_public_owner))

    def function(self, path, lines, number, found, around):
        """Makes the function that begins in a line."""
        owner, kind, trait, is_public_owner = around if found["indent"] else ("", "", "", False)
        indent, name = found["indent"], found["name"]
        body = body_of(lines, number, indent)
        last = end_of(lines, body, indent)
        made = Function(path, f"{owner}::{name}" if owner else name, (number, body, last))
        made.kind, made.trait = kind, trait
        made.has_contract = any(CONTRACT.match(it) for it in lines[number : body + 1])
        made.has_body = not lines[last].endswith(";")
        is_shown = found["public"] == "pub " or kind == "trait"
        made.is_public = is_shown and (is_public_owner if owner else self.is_exported(path, name))
        made.summary = first_sentence(comment_before(lines, number, "///"))
        made.clauses = list(clauses_of(lines, number, body))
        return made

    def place(self, edit):
        """Adds an edit to the function that it changes, or to the item if it changes none."""
        others = []
        for path, old in edit.pairs:
            text = self.texts.get(path, "")
            if old not in text:
                continue
            line = text[: text.index(old)].count("\n")
            for function in self.functions:
                if function.path == path and function.first <= line <= function.last:
                    function.edits.append(edit)
                    return
            others.append((path, item_at(text.split("\n"), line)))
        if others:
            self.elsewhere.append((edit, *others[-1]))


def full_name(crate, function):
    """Returns the name of a function with its crate, file and type, like that of the prover."""
    modules = function.path.removesuffix(".rt").removesuffix("lib").removesuffix("main").strip("/").split("/")
    *owner, name = function.name.split("::")
    if owner and function.kind == "implementation":
        owner[0] += function.trait
    return "::".join(it for it in (crate.name, *modules, *owner, name) if it)


def read_texts(folder):
    """Yields the source files below a folder, each by its path there and its text."""
    for at, _, names in os.walk(folder):
        for name in names:
            if name.endswith(".rt"):
                with open(f"{at}/{name}", encoding="utf-8") as file:
                    yield os.path.relpath(f"{at}/{name}", folder), file.read()


def edits_of(folder):
    """Returns the edits in a folder, by their names."""
    names = sorted(os.listdir(folder)) if os.path.isdir(folder) else []
    return [Edit(folder, it) for it in names if it.endswith(".edit")]


def pairs_of(path):
    """Yields the file below src/ and the old text of each change that an edit makes to code."""
    at = ""
    with open(path, encoding="utf-8") as file:
        for line in file.read().split("\n"):
            if line.startswith("file: "):
                at = line.removeprefix("file: ").strip()
            elif line.startswith("old: ") and at.startswith("src/"):
                yield at.removeprefix("src/"), line.removeprefix("old: ")


def owner_of(header):
    """Returns the type that an `impl` is for, or the name of a trait."""
    rest = header["rest"]
    if header["kind"] == "impl":
        rest = without_generics(rest).rsplit(" for ", 1)[-1]
    found = re.search(r"(?<!')\b(?!mut\b)\w+", rest)
    return found[0] if found else ""


def without_generics(text):
    """Returns the text without the generic parameters that follow `impl`."""
    if not text.startswith("<"):
        return text
    depth = 0
    for place, letter in enumerate(text):
        depth += (letter == "<") - (letter == ">" and text[place - 1] != "-")
        if depth == 0:
            return text[place + 1 :]
    return text


def kind_of(header):
    """Returns whether a block is a trait, an impl of one, or the methods of a type."""
    if header["kind"] == "trait":
        return "trait"
    return "implementation" if " for " in header["rest"] else "type"


def body_of(lines, number, indent):
    """Returns the line in which the body of a function begins, or its declaration ends."""
    has_clauses = False
    for at in range(number, len(lines)):
        line = lines[at]
        has_clauses = has_clauses or bool(CLAUSE.match(line))
        if line in (f"{indent}{{", f"{indent}{{}}") or not has_clauses and line.endswith((" {", "{}")):
            return at
        if line.endswith(";") and not line.lstrip().startswith("//"):
            return at
    return number


def end_of(lines, body, indent):
    """Returns the last line of a function whose body begins in a line."""
    if lines[body].endswith(("{}", ";")):
        return body
    return next((at for at in range(body, len(lines)) if lines[at] == f"{indent}}}"), body)


def trait_of(header):
    """Returns the name of the trait that a block declares or implements, or an empty text."""
    if kind_of(header) == "type":
        return ""
    rest = header["rest"] if header["kind"] == "trait" else without_generics(header["rest"])
    return re.search(r"\w+", rest)[0]


def comment_before(lines, number, mark):
    """Returns the comment before a line, as one text."""
    found = []
    at = number - 1
    while at >= 0 and (lines[at].lstrip().startswith((mark, "#["))):
        if lines[at].lstrip().startswith(f"{mark} "):
            found.append(lines[at].lstrip().removeprefix(mark).strip())
        at -= 1
    return " ".join(reversed(found))


def first_sentence(text):
    """Returns the first sentence of a comment."""
    return re.split(r"(?<=\.)\s+(?=[A-Z`])", text, maxsplit=1)[0]


def clauses_of(lines, number, body):
    """Yields the name of each clause of a function, and the comment before it."""
    for at in range(number, body + 1):
        found = CLAUSE.match(lines[at])
        if found:
            yield found[1] or "", first_sentence(comment_before(lines, at, "//"))


def item_at(lines, number):
    """Returns the name of the item that a line is part of."""
    for at in range(number, -1, -1):
        found = ITEM.match(lines[at])
        if found:
            return found["name"]
    return ""
