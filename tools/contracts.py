#!/usr/bin/env python3
"""Writes out/pages/contracts/: a list of the layers, and for each layer a page with what other crates can call, by crate and module:
each function, type and law with its `///` comment and the names of its contract's clauses. Only the crates that the program is made
of have a place there. Checks the names in docs/CONTRACTS.md.

    tools/contracts.py [--into FOLDER]

Public is what src/lib.rt names by `pub use` or `pub fn`, or holds in a module that it names by `pub mod`; of a program, which has
src/main.rt, the public items of the files from which that takes something by `use crate::..`. Of a public type these are its
`pub` functions too, wherever in the crate they stand. A comment `// ..` among the clauses of a contract is told with the clauses
behind it, up to an empty line.

In docs/CONTRACTS.md each name in backquotes with a `_` or a `::` in it must be that of a public item, a clause, a
definition, a file or a crate.

What is wrong, a public item without a comment for one, is said on standard error, and the exit status is then 1.
"""
import functools
import re
import sys

from pages import CRATES, TO_TOP, TOP, Complaints, crate_head, module_head, read_layers, read_uses, to_cell, write_pages

HEAD_PAGE = TOP / "docs" / "CONTRACTS.md"
LIST_HEAD = ["<!-- Made by tools/contracts.py of crates/*/src. Change those, not this page. -->", "",
             "# All contracts, by layer", "", "The lowest layer comes first.", "", "| Layer | Is | Crates |", "|---|---|---|"]
TABLE_HEAD = ["", "| Item | Promise | Clauses |", "|---|---|---|"]
ITEM = re.compile(r"^pub (?:const )?(fn|struct|enum|trait|type|const) ([A-Za-z_0-9]+)")
PART = re.compile(r"^    (?:(pub) ([a-z_0-9]+):|([A-Z][A-Za-z0-9]*)(?:,|\(.*| = .*| \{.*)$)")
METHOD = re.compile(r"^    (pub )?fn ([A-Za-z_0-9]+)")
INHERENT = re.compile(r"^impl(?:<.*?>)? ([A-Za-z_0-9]+)(?:<.*>)? \{")
MEETS = re.compile(r"^impl(?:<.*?>)? ([A-Za-z_0-9]+)(?:<.*>)? for ([A-Za-z_0-9]+)")
LAW = re.compile(r"^pub fn [a-z_0-9]+(?:<.*>)?\(\)$")
CLAUSE = re.compile(r"^\s*(requires|ensures)(?: ([a-z_0-9]+))? \{")
MODULE = re.compile(r"^pub mod ([a-z_0-9]+);")
USE = re.compile(r"^(pub )?use ([^;]+);", re.M | re.S)
OWN_TRAIT = re.compile(r"^pub trait ([A-Za-z_0-9]+)", re.M)
DEFINED = re.compile(r"^ *(?:(?:abbrev|unfoldable) )?pub (?:(?:record|data) )?([A-Za-z_0-9]+)", re.M)
MEMBER = re.compile(r"^ *ghost (\w+): ", re.M)
NAME = re.compile(r"^[A-Za-z_0-9]*(?:_|::)[A-Za-z_0-9:]*$")

complaints = Complaints("contracts")


class Function:
    """A function or a constant: its name, its comment, and its clauses, with what stands before some of them. A law is a function
    that takes and gives nothing."""

    def __init__(self, name, comment, is_law):
        self.name = name
        self.comment = comment
        self.is_law = is_law
        self.asks = []
        self.clauses = []
        # What is said of clauses: the words, and their names.
        self.remarks = []

    def read_clauses(self, lines, indent):
        """Takes the clauses, which stand behind the signature and before the body."""
        words = []
        names = None
        for line in lines:
            text = line.strip()
            clause = CLAUSE.match(line)
            if text.startswith("// "):
                words.append(text[3:])
            elif clause:
                (self.asks if clause.group(1) == "requires" else self.clauses).append(clause.group(2))
                if words:
                    names = []
                    self.remarks.append((" ".join(words), names))
                    words = []
                if names is not None and clause.group(2):
                    names.append(clause.group(2))
            elif not text:
                names = None
            is_begun = self.asks or self.clauses
            if line in (indent + "{", indent + "{}") or text.endswith(";") or not is_begun and text.endswith(("{", "{}")):
                return

    def promise(self):
        """The comment, and what is said of clauses."""
        told = (["**Law.**"] if self.is_law else []) + [to_cell(self.comment)]
        for words, names in self.remarks:
            told.append((f"{', '.join(f'`{name}`' for name in names)}: " if names else "") + to_cell(words))
        return " ".join(told)

    def clause_names(self):
        """The names of the clauses, those of `requires` first."""
        named = [f"`{name}`" for name in self.clauses if name]
        asked = [f"`{name}`" for name in self.asks if name]
        return "; ".join(filter(None, ["asks " + ", ".join(asked) if asked else "", ", ".join(named)]))


class Type:
    """A type or a trait: its name, its comment, its functions, and its variants or public fields with what is said of them."""

    def __init__(self, kind, name, comment):
        self.kind = kind
        self.name = name
        self.comment = comment
        self.functions = []
        self.parts = []

    def promise(self, meets):
        """The comment, the parts and the traits that the type meets."""
        told = [to_cell(self.comment)]
        if self.parts:
            parts = [f"`{name}`: {to_cell(comment)}" if comment else f"`{name}`." for name, comment in self.parts]
            told.append(" ".join(parts))
        if meets:
            told.append(f"Meets {', '.join(f'`{trait}`' for trait in meets)}.")
        return " ".join(told)


def comment_before(lines, at):
    """The `///` comment before a line, with attributes between; a heading in it is told by a colon."""
    words = []
    at -= 1
    while at >= 0 and re.match(r"\s*(///|#\[|#!\[|\)\]|[^/]*\)\]$)", lines[at]):
        text = lines[at].strip()
        if text.startswith("///"):
            words.append(text[3:].strip())
        at -= 1
    return " ".join(word[2:] + ":" if word.startswith("# ") else word for word in reversed(words) if word)


class Module:
    """A file of code: what is defined in it, what it hands on, and its public modules."""

    def __init__(self, path, folder):
        self.path = path
        self.folder = folder
        self.text = path.read_text()
        self.lines = self.text.splitlines()
        self.functions = {}
        self.types = {}
        self.inherent = {}
        self.meets = []
        self.public_modules = [found.group(1) for found in map(MODULE.match, self.lines) if found]
        self.read()

    def read(self):
        """Takes the items, and what stands in types and `impl` blocks."""
        owner = None
        for at, line in enumerate(self.lines):
            item = ITEM.match(line)
            inherent = INHERENT.match(line)
            meets = MEETS.match(line)
            method = METHOD.match(line)
            if item and item.group(1) in ("fn", "const"):
                self.functions[item.group(2)] = self.function(item.group(2), at, "")
            elif item:
                self.types[item.group(2)] = owner = Type(item.group(1), item.group(2), comment_before(self.lines, at))
            elif meets:
                self.meets.append((meets.group(2), meets.group(1)))
                owner = None
            elif inherent:
                owner = self.inherent.setdefault(inherent.group(1), Type("impl", inherent.group(1), ""))
            elif line.startswith("}"):
                owner = None
            elif method and owner and (method.group(1) or owner.kind == "trait"):
                owner.functions.append(self.function(method.group(2), at, "    "))
            elif owner and owner.kind in ("struct", "enum") and PART.match(line):
                part = PART.match(line)
                owner.parts.append((part.group(2) or part.group(3), comment_before(self.lines, at)))

    def function(self, name, at, indent):
        """The function that begins at a line."""
        function = Function(name, comment_before(self.lines, at), LAW.match(self.lines[at]) is not None)
        function.read_clauses(self.lines[at:], indent)
        return function

    def uses(self, is_public):
        """The names that this file takes from modules of its crate, each with the modules' path; the public ones, or all."""
        for found in USE.finditer(self.text):
            if found.group(1) or not is_public:
                yield from names_of("".join(found.group(2).split()))


def names_of(path):
    """The names of a path of `use`, each with the modules before it."""
    head, brace, rest = path.partition("{")
    modules = [part for part in head.split("::") if part]
    if not brace:
        yield modules[-1], modules[:-1]
    else:
        for name in filter(None, rest.rstrip("}").split(",")):
            yield name, modules


class Crate:
    """The code of a crate."""

    def __init__(self, name):
        self.name = name
        self.source = CRATES / name / "src"
        self.modules = {}

    def module(self, path):
        """The module with this path, none where there is no such file."""
        key = "/".join(path)
        if key not in self.modules:
            file = self.source / f"{key}.rt" if path else self.source / "lib.rt"
            self.modules[key] = Module(file, self.source / key) if file.is_file() else None
        return self.modules[key]

    def find(self, path, name):
        """Where an item stands that the module with this path defines or hands on: the module's path, none where nowhere."""
        module = self.module(path)
        if module is None:
            return None
        if name in module.functions or name in module.types:
            return path
        for used, modules in module.uses(False):
            if used == name:
                return self.find(self.absolute(path, modules), name)
        return None

    @staticmethod
    def absolute(path, modules):
        """The path of modules that a module names."""
        if modules[:1] == ["crate"]:
            return modules[1:]
        while modules[:1] == ["super"]:
            path, modules = path[:-1], modules[1:]
        return path + (modules[1:] if modules[:1] == ["self"] else modules)

    def all_modules(self, path):
        """The modules in the folder of a module, and itself; but for those of public modules in it."""
        module = self.module(path)
        yield module
        public = {module.folder / name for name in module.public_modules}
        for file in sorted(module.folder.rglob("*.rt")):
            if not any(folder == file.with_suffix("") or folder in file.parents for folder in public):
                key = list(file.relative_to(self.source).with_suffix("").parts)
                if key not in (["lib"], ["main"]) and "tests" not in key:
                    yield self.module(key)


@functools.lru_cache(None)
def own_traits():
    """The traits of the repository."""
    return {name for path in CRATES.glob("*/src/**/*.rt") for name in OWN_TRAIT.findall(path.read_text())}


def section(crate, path, names):
    """The rows of what a module hands on; names are those of its items, each with the modules' path."""
    own = list(crate.all_modules(path))
    prefix = "".join(f"{part}::" for part in path)
    rows = []
    for name, modules in names:
        at = crate.find(crate.absolute(path, modules), name)
        if at is not None:
            rows += item_rows(crate, crate.module(at), name, prefix, own)
        elif modules[0].startswith("ped_"):
            rows.append(f"| `{prefix}{name}` | That of {'::'.join(modules)}. |  |")
        else:
            complaints.add(f"{crate.name}: {prefix}{name} isn't found")
    return rows


def item_rows(crate, module, name, prefix, own):
    """The row of an item of a module, and behind that of a type those of its functions, which stand in its own modules."""
    place = f"{TO_TOP}/crates/{module.path.relative_to(CRATES)}"
    if name in module.functions:
        return [function_row(crate, module.functions[name], prefix + name, place)]
    found = module.types[name]
    if not found.comment:
        complaints.add(f"{crate.name}: no comment before {prefix}{name}")
    meets = sorted({trait for other in own for owner, trait in other.meets if owner == name and trait in own_traits()})
    functions = list(found.functions)
    for other in own:
        if name in other.inherent:
            functions += other.inherent[name].functions
    return [f"| [`{prefix}{name}`]({place}) | {found.promise(meets)} |  |"] + [
        function_row(crate, function, f"{prefix}{name}::{function.name}", None) for function in functions]


def function_row(crate, function, name, place):
    """The row of a function; the place of its file is that of its type where it has none."""
    if not function.comment:
        complaints.add(f"{crate.name}: no comment before {name}")
    shown = f"[`{name}`]({place})" if place else f"`{name}`"
    return f"| {shown} | {function.promise()} | {function.clause_names()} |"


def handed_on(module, path=()):
    """What a module with this path hands on: its own public items, and what it names by `pub use`, but for whole crates."""
    names = [(name, ["crate"] + list(path)) for name in list(module.types) + list(module.functions)]
    return names + [(name, modules) for name, modules in module.uses(True) if not (CRATES / name).is_dir()]


def program_rows(crate):
    """The rows of a program."""
    crate.modules[""] = Module(crate.source / "main.rt", crate.source)
    paths = sorted({tuple(modules[1:]) for _, modules in crate.modules[""].uses(False) if modules[:1] == ["crate"]})
    return [row for path in paths for row in section(crate, [], handed_on(crate.module(path), path))]


def crate_lines(name):
    """A crate in the page; nothing where it hands nothing on."""
    crate = Crate(name)
    lines = []
    if (crate.source / "main.rt").is_file():
        rows = program_rows(crate)
        lines += TABLE_HEAD + rows if rows else []
    else:
        pending = [[]]
        while pending:
            path = pending.pop(0)
            module = crate.module(path)
            rows = section(crate, path, handed_on(module, path))
            if path and rows:
                lines += ["", f"### {'::'.join([name] + path)}", "", module_head(module.path)]
            lines += TABLE_HEAD + rows if rows else []
            pending += [path + [inner] for inner in module.public_modules]
    return ["", f"## {name}", "", crate_head(name)] + lines if lines else []


def check_head(pages):
    """Complains of names in the head page that are no public item, clause, definition, ghost member of a trait or crate."""
    shown = "\n".join(line for lines in pages.values() for line in lines if line.startswith("| "))
    known = {part for name in re.findall(r"`([A-Za-z_0-9:]+)`", shown) for part in (name, name.split("::")[-1])}
    for path in CRATES.glob("*/specs/**/*.antt"):
        known.update(DEFINED.findall(path.read_text()))
    for path in CRATES.glob("*/src/**/*.rt"):
        known.update(MEMBER.findall(path.read_text()))
    for name in HEAD_PAGE.read_text().split("`")[1::2]:
        if NAME.match(name) and name not in known and not (CRATES / name).is_dir():
            complaints.add(f"{HEAD_PAGE.name}: nothing public is called {name}")


def crates_below(name, uses):
    """A crate and those that it is made of; libraries of the toolchain are none."""
    found = set()
    pending = [name]
    while pending:
        crate = pending.pop()
        if crate in uses and crate not in found:
            found.add(crate)
            pending += uses[crate]
    return found


def layer_page(layer, crates):
    """The page of a layer; crates are their lines."""
    return ["<!-- Made by tools/contracts.py of crates/*/src. Change those, not this page. -->", "",
            f"# Contracts: {layer.name}", "",
            f"{layer.says[:1].upper()}{layer.says[1:]}. The crates stand from the lowest up, in the order of crates.txt. "
            f"[CONTRACTS.md]({TO_TOP}/docs/CONTRACTS.md) says how to read the tables."] + crates


def main():
    layers = read_layers(complaints)
    below = crates_below("ped", read_uses())
    pages = {"contracts/README.md": LIST_HEAD[:]}
    for layer in layers:
        shown = {crate: crate_lines(crate) for crate in layer.crates if crate in below}
        lines = [line for of_crate in shown.values() for line in of_crate]
        if lines:
            pages[f"contracts/{layer.slug()}.md"] = layer_page(layer, lines)
            names = ", ".join(crate for crate, of_crate in shown.items() if of_crate)
            pages["contracts/README.md"].append(f"| [{layer.name}]({layer.slug()}.md) | {to_cell(layer.says)} | {names} |")
    check_head(pages)
    write_pages(pages, __doc__)
    return 1 if complaints.count else 0


if __name__ == "__main__":
    sys.exit(main())
