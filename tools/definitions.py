#!/usr/bin/env python3
"""Writes out/pages/definitions/: a list of the layers, and for each layer a page with the public definitions of crates/*/specs, crate
by crate in the order of crates.txt, each with its comment and its source. Checks the names in docs/DEFINITIONS.md.

    tools/definitions.py [--into FOLDER]

Each file of definitions begins with a comment line that says what it defines, and each public definition has a comment before
it. The comment before a `mutual` is that of the first definition in it. A file that names others by `pub mod` and defines nothing
says by its comment what the folder of its name holds. Comments may have a public source in parentheses; a definition without one
has that of its file. A source is one of these, or several with `; ` between:

    (ANSI X3.9-1978, sections 3.2.1, 8 to 12)   the standard, by `section`, `sections` or `table`
    (Allen and Kennedy, section 3.3.2)          the book, by `chapter`, `section` or `sections`; behind that may stand a colon
                                                and what is meant there
    (ParaScope)                                 the papers on the ParaScope Editor
    (this project)                              this project's own
    (plain words)                               plain words about lists and numbers

A file whose first line says `Only contracts of private functions use ..` comes at the end of its layer's page, as that line
alone, and needs no sources. No definition outside such files names it, and no definition of another crate; private functions of another
crate may speak of it.

In docs/DEFINITIONS.md, after the line `<!-- names -->`, each name in backquotes must be a definition, a constructor or a
field of crates/*/specs, a function or a type of crates/*/src, or a name that a definition takes from the standard library. Where
the last column of a table is called `Definition`, the names behind `File:` in it must be defined in a file of that name.

What is wrong is said on standard error, and the exit status is then 1.
"""
import re
import sys

from pages import CRATES, TO_TOP, TOP, Complaints, crate_head, read_layers, to_cell, write_pages

HEAD_PAGE = TOP / "docs" / "DEFINITIONS.md"
PRIVATE_WORDS = "Only contracts of private functions use"
NAMES_MARK = "<!-- names -->"

SOURCE = re.compile(r"^(.*) \(((?:ANSI X3\.9-1978|Allen and Kennedy|ParaScope|this project|plain words|sections? [0-9])[^()]*)\)(.*)$")
NUMBER = r"[0-9]+(?:\.[0-9]+)*"
SECTIONS = rf"{NUMBER}(?: to {NUMBER})?(?:, {NUMBER}(?: to {NUMBER})?)*"
STANDARD = re.compile(rf"^ANSI X3\.9-1978, (?:sections? ({SECTIONS})|(table [0-9]+))$")
BOOK = re.compile(rf"^Allen and Kennedy, (?:chapter|sections?) ({SECTIONS}(?:: .+)?)$")
SHORT = {"ParaScope": "PED", "this project": "ped", "plain words": "—"}

DEFINITION = re.compile(r"^(?:(?:abbrev|unfoldable) )?pub (?:(?:record|data) )?([^ ]+)")
PART = re.compile(r"^(?:pub )?([A-Za-z_0-9]+) :")
HOLDER = re.compile(r"^(?:mutual|.* mutual|module.*where)$")
FROM_STD = re.compile(r"^use Rattle\.std\..*\{(.*)\}")
CODE_NAME = re.compile(r"(?:^| )(?:fn|enum|struct|trait|type) ([A-Za-z_0-9]+)")
# A file of definitions in an import, which may go through crates that pass others on: the last crate of the path counts.
IMPORT = re.compile(r"Rattle(?:\.[a-z_0-9]+\.specs)*\.([a-z_0-9]+)\.specs((?:\.[A-Z][A-Za-z0-9]*)+)")
NAME = re.compile(r"^[A-Za-z_][A-Za-z0-9_]+$")
CELL_FILE = re.compile(r"^([A-Z][A-Za-z0-9]*): ")

complaints = Complaints("definitions")
# The names that the head page may have, and those of files of definitions as FILE.NAME.
known = set()
defined = set()
# Who names which file of definitions: the path of the one, and the file that it names.
uses = []


class Row:
    """A row of a page: the names that it defines together, what is said of them, and the source."""

    def __init__(self, name, says, source):
        self.names = [name]
        self.says = says
        self.source = source

    def __str__(self):
        return f"| {', '.join(f'`{name}`' for name in self.names)} | {self.says} | {self.source} |"


def split_comment(comment):
    """A comment without its source, and that, empty where it has none."""
    found = SOURCE.match(comment)
    return (found.group(1) + found.group(3), found.group(2)) if found else (comment, "")


def shorten(source, path):
    """A source in the short form of the page."""
    parts = []
    for part in filter(None, source.split("; ")):
        standard = STANDARD.match(part)
        book = BOOK.match(part)
        if standard:
            parts.append("ANSI " + (standard.group(1) or standard.group(2)))
        elif book:
            parts.append("AK " + book.group(1))
        elif part in SHORT:
            parts.append(SHORT[part])
        else:
            complaints.add(f"{path}: not a source: {part}")
    return "; ".join(parts)


def keep_uses(line, path):
    """Keeps the files of definitions that a line names."""
    for crate, names in IMPORT.findall(line):
        # Behind the file may stand a name of it; the longest path that is a file counts.
        parts = names.strip(".").split(".")
        while parts and not (CRATES / crate / "specs" / "/".join(parts)).with_suffix(".antt").is_file():
            parts.pop()
        if parts:
            uses.append((path, CRATES / crate / "specs" / ("/".join(parts) + ".antt")))


class DefinitionFile:
    """A file of definitions: what it says, whether it is for contracts of private functions alone, and its rows."""

    def __init__(self, path):
        self.path = path
        self.shown = str(path.relative_to(CRATES))
        self.rows = []
        # How deep in `mutual` and `module` the present line stands.
        self.depth = 0
        lines = path.read_text().splitlines()
        head = []
        while lines and lines[0].startswith("-- "):
            head.append(lines.pop(0)[3:])
        self.head = " ".join(head)
        if not head:
            complaints.add(f"{self.shown}: no comment line at its front")
        self.says, source = split_comment(self.head)
        self.source = shorten(source, self.shown)
        self.is_private = PRIVATE_WORDS in self.head
        self.read(lines)

    def read(self, lines):
        comment = []
        for line in lines:
            text = line.lstrip(" ")
            indent = len(line) - len(text)
            if text.startswith("-- "):
                comment.append(text[3:])
            elif not text:
                comment = []
            elif HOLDER.match(text):
                self.depth = indent // 2 + 1
            elif not text.startswith("infix"):
                self.depth = min(indent // 2, self.depth)
                self.read_line(text, indent, " ".join(comment))
                comment = []

    def read_line(self, text, indent, comment):
        """Reads a line that is no comment and holds no other lines together."""
        definition = DEFINITION.match(text)
        part = PART.match(text)
        from_std = FROM_STD.match(text)
        if text.startswith(("use ", "pub use ", "pub mod ")):
            known.update(from_std.group(1).replace(",", " ").split() if from_std else [])
            keep_uses(text, self.path)
        elif definition and indent == 2 * self.depth:
            self.add(definition.group(1), comment)
        elif part:
            self.define(part.group(1))

    def define(self, name):
        known.add(name)
        defined.add(f"{self.path.stem}.{name}")

    def add(self, name, comment):
        """Adds a definition. One that is held together with others and has no comment stands in the row of the one before."""
        self.define(name)
        if self.is_private:
            return
        if not comment and self.depth > 0 and self.rows:
            self.rows[-1].names.append(name)
            return
        if not comment:
            complaints.add(f"{self.shown}: no comment before {name}")
        says, source = split_comment(comment)
        short = shorten(source, self.shown) or self.source
        if not short:
            complaints.add(f"{self.shown}: no source for {name}")
        self.rows.append(Row(name, to_cell(says), short))

    def lines(self):
        """The file in its layer's page."""
        text = self.says if self.says.endswith(".") else self.says + "."
        return ["", f"### `{self.shown}`", "", text] + (
            ["", "| Definition | Says | Source |", "|---|---|---|"] + [str(row) for row in self.rows] if self.rows else [])

    def private_line(self):
        says = self.head.split(" " + PRIVATE_WORDS)[0]
        return f"- `{self.shown}`: {says}"


def definition_files(crate):
    """The files of definitions of a crate, in the order of their paths; what names the others of the crate is none."""
    paths = sorted((CRATES / crate / "specs").rglob("*.antt"), key=str)
    return [DefinitionFile(path) for path in paths if path.name != "Lib.antt"]


def layer_page(layer, files):
    """The page of a layer; files are those of its crates."""
    lines = ["<!-- Made by tools/definitions.py of crates/*/specs. Change those, not this page. -->", "",
             f"# Definitions: {layer.name}", "",
             f"{layer.says[:1].upper()}{layer.says[1:]}. The crates stand from the lowest up, in the order of crates.txt. "
             f"[DEFINITIONS.md]({TO_TOP}/docs/DEFINITIONS.md) says how to read definitions, and what the sources are."]
    for crate in layer.crates:
        shown = [file for file in files[crate] if not file.is_private]
        if any(file.rows for file in shown):
            lines += ["", f"## {crate}", "", crate_head(crate)]
            for file in shown:
                lines += file.lines()
    private = [file.private_line() for crate in layer.crates for file in files[crate] if file.is_private]
    if private:
        lines += ["", "## What contracts of private functions alone cite", "",
                  "No contract of a function that another crate can call speaks of these files.", ""] + private
    return lines


def layer_list(layers, files):
    """The list of the layers' pages."""
    lines = ["<!-- Made by tools/definitions.py of crates/*/specs. Change those, not this page. -->", "",
             "# All definitions, by layer", "", "The lowest layer comes first.", "",
             "| Layer | Is | Crates with definitions |", "|---|---|---|"]
    for layer in layers:
        crates = [crate for crate in layer.crates if files[crate]]
        if crates:
            lines.append(f"| [{layer.name}]({layer.slug()}.md) | {to_cell(layer.says)} | {', '.join(crates)} |")
    return lines


def read_code():
    """The names of functions and types of the code, and the files of definitions that it names."""
    for path in sorted(CRATES.glob("*/src/**/*.rt")):
        for line in path.read_text().splitlines():
            named = CODE_NAME.search(line)
            if named:
                known.add(named.group(1))
            elif "ghost use" in line:
                keep_uses(line, path)


def check_private(files):
    """Complains of files for private functions that a definition names which is not of such a file of the same crate."""
    private = {file.path for of_crate in files.values() for file in of_crate if file.is_private}
    for path, used in uses:
        crate = CRATES / used.relative_to(CRATES).parts[0]
        is_code = path.suffix == ".rt"
        if used in private and not is_code and (path not in private or crate not in path.parents):
            complaints.add(f"{used.relative_to(TOP)} isn't for private functions alone: {path.relative_to(TOP)} names it")


def check_names(text, file=None):
    """Complains of names in backquotes that nothing defines, in a line of the head page; where a file is given, in it."""
    for name in text.split("`")[1::2]:
        if NAME.match(name):
            if file is not None and f"{file}.{name}" not in defined:
                complaints.add(f"{HEAD_PAGE.name}: {file} defines no {name}")
            elif name not in known:
                complaints.add(f"{HEAD_PAGE.name}: nothing defines {name}")


def check_head(lines):
    """Checks the names of the head page, and those of the last column of its tables of definitions."""
    is_on = has_files = False
    for line in lines:
        is_on = is_on or line == NAMES_MARK
        has_files = line.startswith("|") and (has_files or line.endswith("| Definition |"))
        if is_on:
            check_names(line)
        if has_files:
            for part in line[:-2].split("| ")[-1].split("; "):
                found = CELL_FILE.match(part)
                if found:
                    check_names(part, found.group(1))


def main():
    layers = read_layers(complaints)
    files = {crate: definition_files(crate) for layer in layers for crate in layer.crates}
    read_code()
    check_private(files)
    check_head(HEAD_PAGE.read_text().splitlines())
    pages = {"definitions/README.md": layer_list(layers, files)}
    for layer in layers:
        if any(files[crate] for crate in layer.crates):
            pages[f"definitions/{layer.slug()}.md"] = layer_page(layer, files)
    write_pages(pages, __doc__)
    return 1 if complaints.count else 0


if __name__ == "__main__":
    sys.exit(main())
