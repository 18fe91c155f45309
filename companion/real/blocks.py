"""Program units and blocks: which statement belongs to which, found by their first words alone.

A DO with a label ends with the statement of this label; several DOs may share it. Where an END is missing, or one has
nothing to end, the unit has a fault and no loop of it gets a verdict. The units after it are read as if nothing was.
"""

from __future__ import annotations

import re
from dataclasses import dataclass, field, replace
from functools import partial
from pathlib import Path
from typing import List, Optional, Sequence, Tuple

from . import tree
from .convert import statement_of
from .items import Item, read_items
from .keywords import DECLARATIONS, keyword_of, letters_of
from .preprocessing import Macros
from .source import Mark, form_of, read_source
from .units import Block, Branch, Declared, Fault, File, InterfaceBlock, Node, TypeDefinition, Unit, Written

#: How deep INCLUDEs may be nested.
_DEPTH = 20

_HEADS = ("PROGRAM", "SUBROUTINE", "FUNCTION", "MODULE", "SUBMODULE", "BLOCK DATA")
_UNIT_ENDS = ("", "PROGRAM", "SUBROUTINE", "FUNCTION", "MODULE", "SUBMODULE", "BLOCK DATA", "PROCEDURE")

#: The kinds of blocks by the words of their first statements, and the words that begin further branches.
_OPENERS = {
    "DO": "DO", "IF THEN": "IF", "SELECT CASE": "SELECT", "SELECT TYPE": "SELECT", "WHERE": "WHERE",
    "FORALL": "FORALL", "ASSOCIATE": "ASSOCIATE", "BLOCK": "BLOCK",
}
_BRANCHES = {
    "ELSE": ("IF",), "ELSE IF": ("IF",), "ELSEWHERE": ("WHERE",), "CASE": ("SELECT",), "TYPE GUARD": ("SELECT",),
}

_DO_LABEL = re.compile("DO([0-9]+)")


def read_file(
    path: str, text: str, form: Optional[str] = None, columns: int = 72, folders: Sequence[str] = (),
    macros: Macros = Macros(),
) -> File:
    """A file with its units. Raises `library.LibraryMissing`.

    `form` is `fixed` or `free`, by the suffix where it's none. `columns` is the last column of fixed form that counts.
    INCLUDEd files are looked for in the file's folder and in `folders`. `macros` decide conditions of the preprocessor.
    """
    form = form_of(path) if form is None else form
    reading = _Including(form, columns, [str(Path(path).parent), *folders], macros)
    items = reading.items(text, "", ())
    read = partial(statement_of, form=form)
    written = [Written(number, item, _word(item, form), read) for number, item in enumerate(items)]
    marks = tuple(reading.marks)
    units = _Nesting(written).units()
    for unit in units:
        _note_marks(unit, marks, ())
    return File(path, form, tuple(reading.lines), units, marks, tuple(reading.found))


def _word(item: Item, form: str) -> str:
    if item.fault:
        return ""
    return "INCLUDE" if item.include else keyword_of(letters_of(item.text, form), form)


class _Including:
    """Reads the items of a file, with those of INCLUDEd files in their places."""

    def __init__(self, form: str, columns: int, folders: Sequence[str], macros: Macros) -> None:
        self._form = form
        self._macros = macros
        self._columns = columns
        self._folders = folders
        self.lines: Tuple[str, ...] = ()
        self.marks: List[Mark] = []
        self.found: List[str] = []

    def items(self, text: str, file: str, outer: Tuple[str, ...]) -> List[Item]:
        """The items of a text; `outer` are the INCLUDEd files that it is in."""
        source = read_source(text, self._form, self._columns, self._macros)
        if not file:
            self.lines = source.lines
        self.marks.extend(replace(mark, file=file) for mark in source.marks)
        items: List[Item] = []
        for item in read_items(source):
            if item.include and not item.fault:
                items.extend(self._included(replace(item, file=file), outer))
            else:
                items.append(replace(item, file=file) if file else item)
        return items

    def _included(self, item: Item, outer: Tuple[str, ...]) -> List[Item]:
        """The items of an INCLUDEd file; the INCLUDE itself where it isn't found or includes itself."""
        for folder in self._folders:
            path = str(Path(folder) / item.include)
            if path in outer or len(outer) == _DEPTH or not Path(path).is_file():
                continue
            self.found.append(path)
            return self.items(Path(path).read_bytes().decode("latin-1"), path, (*outer, path))
        self.marks.append(Mark("include", item.first, item.last, item.text, item.file))
        return [item]


def _note_marks(unit: Unit, marks: Sequence[Mark], inherited: Tuple[Fault, ...]) -> None:
    """Adds faults by the preprocessor's lines to a unit, and all of its faults to the procedures that it contains."""
    lines = [mark for mark in marks if mark.kind == "preprocessor"]
    touching = [
        Fault("preprocessor", mark.first, mark.words) for mark in lines
        if not mark.file and unit.first_line <= mark.last and mark.first <= unit.last_line
    ]
    included = [
        Fault("preprocessor", mark.first, f"{mark.words} in {mark.file}") for mark in lines
        if mark.file in unit.files
    ]
    unit.faults = tuple(dict.fromkeys([*unit.faults, *inherited, *touching, *included]))
    for contained in unit.contained:
        _note_marks(contained, marks, unit.faults)


@dataclass
class _Open:
    """A block that isn't ended yet."""

    kind: str
    head: Written
    label: Optional[int] = None
    lead: List[Node] = field(default_factory=list)
    branches: List[Tuple[Written, List[Node]]] = field(default_factory=list)

    @property
    def nodes(self) -> List[Node]:
        """Where the next node goes."""
        return self.branches[-1][1] if self.branches else self.lead

    def closed(self, end: Optional[Written], shares_end: bool = False) -> Block:
        """The block, ended."""
        branches = tuple(Branch(head, tuple(nodes)) for head, nodes in self.branches)
        return Block(self.kind, self.head, branches, end, shares_end, tuple(self.lead))


class _Nesting:
    """Divides the statements of a file into units. `_next` is the first that is in none yet."""

    def __init__(self, written: Sequence[Written]) -> None:
        self._all = written
        self._next = 0

    def units(self) -> Tuple[Unit, ...]:
        """All units of the file."""
        units = []
        while self._next < len(self._all):
            units.append(self._unit(None))
        return tuple(units)

    def peek(self) -> Optional[Written]:
        """The next statement; none at the end of the file."""
        return self._all[self._next] if self._next < len(self._all) else None

    def take(self) -> Written:
        """The next statement, which is in a unit from now on."""
        self._next += 1
        return self._all[self._next - 1]

    def _unit(self, host: Optional[Unit]) -> Unit:
        """The unit that begins here; it has at least one statement."""
        begin = self._next
        unit = Unit("PROGRAM", "", None, (), (), None, host)
        if self._begins_unit(self._all[begin], host):
            unit.head = self.take()
            _take_head(unit, unit.head.statement)
        unit.specification = self._specification(unit)
        body = _Body(self)
        unit.body = body.nodes_until_end()
        own = self._all[begin:self._next]
        unit.files = frozenset(written.item.file for written in own if written.item.file)
        faults = [*_include_faults(own), *body.faults]
        self._contained(unit)
        last = self.peek()
        if last is not None and _ends_unit(last):
            unit.end = self.take()
        else:
            line = self._all[max(begin, self._next - 1)].item.last
            faults.append(Fault("parse", line, "the unit has no END"))
        if self._next == begin:
            faults.append(Fault("parse", self.take().item.first, "there is nothing that it belongs to"))
        items = [written.item for written in self._all[begin:self._next] if not written.item.file]
        unit.first_line = min((item.first for item in items), default=0)
        unit.last_line = max((item.last for item in items), default=0)
        unit.faults = (*_head_faults(unit), *faults)
        return unit

    @staticmethod
    def _begins_unit(written: Written, host: Optional[Unit]) -> bool:
        return written.word in _HEADS or (host is not None and written.word == "MODULE PROCEDURE")

    def _contained(self, unit: Unit) -> None:
        """The procedures after CONTAINS."""
        contains = self.peek()
        if contains is None or contains.word != "CONTAINS":
            return
        self.take()
        found = []
        while True:
            here = self.peek()
            if here is None or _ends_unit(here):
                break
            found.append(self._unit(unit))
        unit.contained = tuple(found)

    def _specification(self, unit: Unit) -> Tuple[Declared, ...]:
        """The declarations of a unit."""
        found: List[Declared] = []
        while True:
            here = self.peek()
            if here is None or here.word in _HEADS:
                break
            if here.word == "DERIVED TYPE":
                found.append(self._type())
            elif here.word == "INTERFACE":
                found.append(self._interface(unit))
            elif here.word in DECLARATIONS or here.word == "" or _is_end_of(here, "ENUM"):
                found.append(self.take())
            else:
                break
        return tuple(found)

    def _type(self) -> TypeDefinition:
        """A derived type; it ends at the latest where another unit or type begins."""
        head = self.take()
        parts: Tuple[List[Written], List[Written]] = ([], [])
        part = 0
        while True:
            here = self.peek()
            if here is None or here.word in (*_HEADS, "DERIVED TYPE", "INTERFACE"):
                return TypeDefinition(head, tuple(parts[0]), tuple(parts[1]), None)
            self.take()
            if here.word == "END":
                return TypeDefinition(head, tuple(parts[0]), tuple(parts[1]), here)
            if here.word == "CONTAINS":
                part = 1
            else:
                parts[part].append(here)

    def _interface(self, unit: Unit) -> InterfaceBlock:
        head = self.take()
        bodies: List[Unit] = []
        names: List[Written] = []
        while True:
            here = self.peek()
            if here is None or _ends_unit(here):
                return InterfaceBlock(head, tuple(bodies), tuple(names), None)
            if here.word in ("SUBROUTINE", "FUNCTION"):
                bodies.append(self._unit(unit))
                continue
            self.take()
            if _is_end_of(here, "INTERFACE"):
                return InterfaceBlock(head, tuple(bodies), tuple(names), here)
            names.append(here)


class _Body:
    """Divides the statements of one unit's body into nodes."""

    def __init__(self, nesting: _Nesting) -> None:
        self._nesting = nesting
        self._nodes: List[Node] = []
        self._open: List[_Open] = []
        self.faults: List[Fault] = []

    def nodes_until_end(self) -> Tuple[Node, ...]:
        """The nodes up to the unit's END, to CONTAINS, or to the head of the next unit."""
        while True:
            here = self._nesting.peek()
            if here is None or here.word in ("CONTAINS", *_HEADS) or _ends_unit(here):
                break
            self._nesting.take()
            self._add(here)
        self._close_broken(0)
        return tuple(self._nodes)

    def _add(self, written: Written) -> None:
        """Puts a statement in its place."""
        kind = _OPENERS.get(written.word)
        if kind is not None and _is_block(written):
            self._begin(kind, written)
        elif written.word in _BRANCHES:
            self._branch(written)
        elif written.word == "END":
            self._end(written)
            return
        else:
            self._here().append(written)
            self._end_labelled(written)
            return
        if written.item.label is not None and self._labelled(written.item.label) is not None:
            self._fault(written, f"a DO can't end with the statement of label {written.item.label}")

    def _here(self) -> List[Node]:
        return self._open[-1].nodes if self._open else self._nodes

    def _begin(self, kind: str, written: Written) -> None:
        block = _Open("CRITICAL" if kind == "BLOCK" and _is_critical(written) else kind, written)
        if kind == "DO":
            match = _DO_LABEL.match(letters_of(written.item.text, "fixed").masked)
            block.label = int(match.group(1)) if match else None
        if kind != "SELECT":
            block.branches.append((written, []))
        self._open.append(block)

    def _branch(self, written: Written) -> None:
        """A further branch of the innermost block."""
        if not self._open or self._open[-1].kind not in _BRANCHES[written.word]:
            self._fault(written, "there is no block that it belongs to")
            self._here().append(written)
            return
        self._open[-1].branches.append((written, []))

    def _end(self, written: Written) -> None:
        """An END of a block: it ends the innermost one, which has to be of its kind."""
        statement = written.statement
        word = statement.word if isinstance(statement, tree.End) else ""
        label = written.item.label
        if not any(block.kind == word for block in self._open):
            self._fault(written, "there is no block that it ends")
            self._here().append(written)
            return
        while self._open[-1].kind != word:
            self._close_broken(len(self._open) - 1)
        if word == "DO" and self._open[-1].label not in (None, label):
            self._fault(written, "its label isn't that of its DO")
        self._close(written)
        if label is not None and self._labelled(label) is not None:
            self._fault(written, f"more than one DO ends with label {label}")

    def _end_labelled(self, written: Written) -> None:
        """Ends all DOs whose label is that of a statement, which is in the innermost body already."""
        label = written.item.label
        if label is None:
            return
        count = sum(1 for block in self._open if block.label == label)
        for _ in range(count):
            while self._open[-1].label != label:
                self._close_broken(len(self._open) - 1)
            self._close(written, shares_end=count > 1)

    def _labelled(self, label: int) -> Optional[_Open]:
        return next((block for block in self._open if block.label == label), None)

    def _close(self, end: Optional[Written], shares_end: bool = False) -> None:
        block = self._open.pop().closed(end, shares_end)
        self._here().append(block)

    def _close_broken(self, depth: int) -> None:
        """Ends the blocks that are open beyond a depth, as their ENDs are missing."""
        while len(self._open) > depth:
            self._fault(self._open[-1].head, "its END is missing")
            self._close(None)

    def _fault(self, written: Written, words: str) -> None:
        self.faults.append(Fault("parse", written.item.first, f"{written.item.text}: {words}"))


def _is_block(written: Written) -> bool:
    """Whether a WHERE or a FORALL, or another statement, is the first line of a block."""
    if written.word not in ("WHERE", "FORALL"):
        return True
    letters = letters_of(written.item.text, "fixed")
    return letters.closing(letters.masked.index("(")) >= len(letters.masked) - 1


def _is_critical(written: Written) -> bool:
    return written.item.text.upper().startswith("CRITICAL")


def _end_word(written: Written) -> Optional[str]:
    """What is written after END; none for any other statement."""
    if written.word != "END":
        return None
    statement = written.statement
    return statement.word if isinstance(statement, tree.End) else None


def _ends_unit(written: Written) -> bool:
    return _end_word(written) in _UNIT_ENDS


def _is_end_of(written: Written, word: str) -> bool:
    return _end_word(written) == word


def _take_head(unit: Unit, statement: tree.Statement) -> None:
    """What the head of a unit says of it."""
    if isinstance(statement, tree.Head):
        unit.kind, unit.name = statement.kind, statement.name
    elif isinstance(statement, tree.ModuleProcedure):
        unit.kind, unit.name = "PROCEDURE", statement.names[0]
    elif unit.head is not None:
        unit.kind = unit.head.word


def _head_faults(unit: Unit) -> List[Fault]:
    """A head that can't be read leaves the dummies unknown."""
    if unit.head is None or not isinstance(unit.head.statement, tree.Unreadable):
        return []
    return [Fault("parse", unit.head.item.first, f"{unit.head.item.text}: {unit.head.statement.words}")]


def _include_faults(statements: Sequence[Written]) -> List[Fault]:
    """INCLUDEs whose files weren't found, of a unit without those that it contains."""
    return [
        Fault("include", written.item.first, f"{written.item.text}: there is no such file")
        for written in statements if written.word == "INCLUDE"
    ]
