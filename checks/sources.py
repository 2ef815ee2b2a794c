"""What the crates declare, as it stands in their sources: the definitions and lemmas of specs/ and proofs/ (.antt),
and the items of src/ (.rt). checks/reading_list, checks/documents and checks/gate_time stand on it; it is no program
of its own.
"""

import os
import re
from collections import defaultdict
from dataclasses import dataclass
from functools import cache

TOP = os.path.dirname(os.path.dirname(os.path.realpath(__file__)))

# What may stand before the name of a definition, and what begins a line that declares none.
HEAD = {"pub", "abbrev", "unfoldable", "record", "data", "axiom", "pattern"}
NO_DEFINITION = {"use", "mod", "mutual", "open", "infix", "infixl", "infixr", "package", "module"}
ITEM = re.compile(r"(?:pub(?:\(\w+\))? |const (?=fn))*(fn|struct|enum|trait|type|const|impl|macro)\b[ <]*(\w+)?")
RUST_USE = re.compile(r"^(?:pub )?use ([\w:]+)::(\w+|\{[^}]*\});$", re.M)
TICKED = re.compile(r"`([^`]+)`")
WORD = re.compile(r"[A-Za-z_][\w'-]*")


@dataclass
class Item:
    """A definition or an item: its name, where it begins, and its lines without comments and blank ones."""
    kind: str
    name: str
    path: str
    line: int
    lines: list

    def text(self):
        return "\n".join(self.lines)


@cache
def crates():
    """Each crate with those that it names, in the order of crates.txt: first those that others stand on."""
    rows = [line.partition("#")[0].partition(":") for line in read("crates.txt").split("\n")]
    return {name.strip(): below.split() for name, colon, below in rows if colon}


def files(folder, ending):
    """The files below a folder of the project with this ending, as paths from the top."""
    for at, folders, names in os.walk(f"{TOP}/{folder}"):
        folders[:] = sorted(set(folders) - {"out", ".git", "__pycache__"})
        yield from (os.path.relpath(f"{at}/{name}", TOP) for name in sorted(names) if name.endswith(ending))


@cache
def read(path):
    with open(f"{TOP}/{path}", encoding="utf-8") as text:
        return text.read()


def code(path):
    """The lines of a file with their numbers, without comments and blank lines."""
    mark = r"(^|\s)--(\s.*)?$" if path.endswith(".antt") else r"(^|\s)//.*$"
    for number, line in enumerate(read(path).split("\n"), 1):
        line = re.sub(mark, "", line).rstrip()
        if line:
            yield number, line


def is_clause(name, line):
    """Whether a line goes on with the definition of this name: one that is indented, and one that has it in front."""
    words = line.split()
    return line[0] in " })" or words[0] == name or ("◌" in name and not set(words).isdisjoint(name.split("◌")))


def outside_modules(path):
    """The lines of an .antt file with their numbers. What stands in a `module _` is moved out of it."""
    is_inside = False
    for number, line in code(path):
        is_inside = line.startswith("module _ ") or is_inside and line[0] == " "
        yield number, line.removeprefix("  ") if is_inside else line


def definitions(path):
    """The definitions of an .antt file, in their order."""
    found = []
    for number, line in outside_modules(path):
        words = line.split()
        if found and is_clause(found[-1].name, line):
            found[-1].lines.append(line)
            continue
        kind = next(word for word in words if word not in {"pub", "abbrev", "unfoldable", "pattern"})
        if kind not in NO_DEFINITION:
            name = next(word for word in words if word not in HEAD).rstrip(":")
            found.append(Item(kind if kind in HEAD else "definition", name, path, number, [line]))
    return found


def items(path):
    """The items of an .rt file, in their order. An `impl` is named by its type, or as TRAIT for TYPE."""
    found, is_open = [], False
    for number, line in code(path):
        head = ITEM.match(line)
        if head:
            whose = re.search(r"\bimpl(?:<.*?>)? (?:(\w+).* for )?(\w+)", line)
            name = " for ".join(filter(None, whose.groups())) if head[1] == "impl" and whose else head[2]
            found.append(Item(head[1], name, path, number, []))
        is_open = bool(head) or is_open and line[0] in " {})>"
        if is_open:
            found[-1].lines.append(line)
    return found


def fields(record):
    """The names of the fields of a record."""
    return set(re.findall(r"^\s+(?:pub )?([\w'-]+) :", record.text(), re.M)) if record.kind == "record" else set()


def members(item):
    """The names that stand in an item of src/ and are no calls: fields, variants, constants and ghost members."""
    if item.kind in ("struct", "enum"):
        return set(re.findall(r"^\s+(?:pub(?:\(\w+\))? )?(\w+)(?=[:({,]| \{| =|$)", item.text(), re.M))
    return set(re.findall(r"\b(?:ghost|const|type) (\w+)\b", item.text()))


def calls(item):
    """The functions of an item of src/, each with its head, which ends where the body begins."""
    for part in re.split(r"^(?=\s*(?:pub(?:\(\w+\))? )?(?:const )?fn )", item.text(), flags=re.M):
        name = re.search(r"\bfn (\w+)", part)
        if name:
            yield name[1], re.split(r"^\s*\{$", part, flags=re.M)[0]


class Declared:
    """The names that the crates declare: in `names` by crate, all of them in `every`, the definitions of specs/ in
    `definitions`, and in `owned` by what they belong to, which is a crate, a module, a file, a record, a type, a trait,
    or a call, OWNER::CALL or CRATE::CALL. To a call belong its clauses, and the fields of the laws that these are."""

    def __init__(self):
        self.names, self.owned, self.laws = defaultdict(set), defaultdict(set), defaultdict(list)
        self.definitions, self.ticked, self.words = set(), set(), set()
        for crate, below in crates().items():
            self.names[crate] |= {crate, *below}
        paths = [path for crate in crates() for path in files(f"crates/{crate}", (".antt", ".rt"))]
        for path in paths:
            if path.endswith(".antt"):
                self.add_definitions(path)
        for path in paths:
            if path.endswith(".rt"):
                self.add_items(path)
        for trait, kind in [pair.split(" for ") for pair in self.owned if " for " in pair]:
            for call in [key for key in self.owned if key.startswith(f"{trait}::")]:
                self.owned[f"{kind}::{call.rpartition('::')[2]}"] |= self.owned[call]
            self.owned[kind] |= self.owned.get(trait, set())
        self.every = set().union(*self.names.values())

    def add_definitions(self, path):
        _, crate, folder, *_, file = path.split("/")
        self.names[crate] |= {file.removesuffix(".antt")}
        for item in definitions(path):
            self.definitions |= {item.name} if folder == "specs" else set()
            self.names[crate] |= {item.name} | fields(item)
            self.owned[item.name] |= fields(item)
            if re.match(r"pub record \S+ [({]|abbrev pub \S+ : .*→ Type 0$", item.lines[0]):
                self.laws[item.name].append(item)
            for owner in (file, file.removesuffix(".antt")):
                self.owned[owner].add(item.name)
        if folder == "specs":
            self.add_words(path)

    def add_words(self, path):
        """The words of the texts, which stand in quotes in specs/, and what comments have in backticks."""
        if path.endswith(".antt"):
            self.words |= set(re.findall(r'"([^"]*)"', read(path)))
        self.ticked |= set(TICKED.findall(read(path)))

    def add_items(self, path):
        crate = path.split("/")[1]
        self.add_words(path)
        for _, names in RUST_USE.findall(read(path)):
            self.names[crate] |= set(WORD.findall(names))
        for item in items(path):
            owner = crate if item.kind == "fn" else item.name.split()[-1]
            self.names[crate] |= {item.name} | members(item)
            self.owned[crate].add(item.name)
            self.owned[owner] |= members(item)
            self.owned[item.name] |= set()
            for call, head in calls(item):
                named = set(re.findall(r"\b(?:ensures|requires) (\w+) \{", head))
                self.names[crate] |= {call} | named
                self.owned[owner].add(call)
                for key in (f"{owner}::{call}", f"{crate}::{call}"):
                    self.owned[key] |= named | self.fields_below(head.partition("ensures")[2])

    def fields_below(self, text):
        """The fields of the laws that a text names, and of those that these name. A law is a record with
        arguments, or a fact by another name."""
        found, left = {}, [text]
        while left:
            for name in set(WORD.findall(left.pop())) & self.laws.keys() - found.keys():
                found[name] = set().union(*map(fields, self.laws[name]))
                left += [item.text() for item in self.laws[name]]
        return set().union(*found.values())
