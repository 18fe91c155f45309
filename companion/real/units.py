"""What a file is made of: program units, blocks and statements, each statement read when it is asked for.

A `File` has `Unit`s. A unit has a specification part and a body, which is a tuple of nodes. A node is a `Written`, a
statement in its place, or a `Block`: a DO, IF, SELECT and so on, with its branches, which have bodies again.

`Written.statement` reads the statement with the library, on first use, and keeps it. How blocks nest is found without
it, by the first words of statements. So a reader of a unit's DOs pays for no other statement.
"""

from __future__ import annotations

from dataclasses import dataclass
from typing import Callable, FrozenSet, Iterator, List, Optional, Tuple, Union

from . import tree
from .items import Item
from .keywords import words_of
from .source import Mark


class Written:
    """A statement in its place.

    `number` counts the statements of a file from 0, in order of text, and is unlike any other's: it serves as the
    statement's name in graphs and tables. Two `Written`s are equal only where they are the same.
    """

    __slots__ = ("number", "item", "word", "_read", "_statement", "_names")

    def __init__(self, number: int, item: Item, word: str, read: Callable[[Item, str], tree.Statement]) -> None:
        self.number = number
        self.item = item
        #: What kind of statement it is by its first word: a key of `convert.CLASSES`, empty where it's unknown.
        self.word = word
        self._read = read
        self._statement: Optional[tree.Statement] = None
        self._names: Optional[FrozenSet[str]] = None

    @property
    def statement(self) -> tree.Statement:
        """What the statement says; `tree.Unreadable` where it can't be read. It is read once."""
        if self._statement is None:
            self._statement = self._read(self.item, self.word)
        return self._statement

    @property
    def names(self) -> FrozenSet[str]:
        """All words of the text outside character constants, in capitals: at least all names that it has.

        Nothing is read by the library for it. Keywords are among them, and both `X` and `Y` of `X%Y`.
        """
        if self._names is None:
            self._names = words_of(self.item.text)
        return self._names

    def __repr__(self) -> str:
        return f"<{self.number}: {self.item.text} (line {self.item.first})>"


@dataclass(frozen=True, eq=False)
class Branch:
    """A part of a block: the statement that begins it, and what is inside up to the next branch or the block's end.

    The heads of an IF are IF .. THEN, ELSE IF and ELSE; of a SELECT its CASEs; of a WHERE the WHERE and its ELSEWHEREs.
    """

    head: Written
    body: Tuple[Node, ...]


@dataclass(frozen=True, eq=False)
class Block:
    """Statements that belong together.

    `kind` is `DO` (of any control), `IF`, `SELECT`, `WHERE`, `FORALL`, `ASSOCIATE`, `BLOCK` or `CRITICAL`. All but IF,
    SELECT and WHERE have one branch, whose head is `head`. In a SELECT `head` is the SELECT itself, and `lead` holds
    what comes before its first CASE (nothing in right programs).

    `end` is the last statement: END IF, END DO, ..; none where the file or the unit ends before it: then the program is
    wrong, and nothing may be said about this block. A DO that has a label ends with the statement of this label. If
    this is no END DO, it is an iteration's last statement (a CONTINUE, too), and so is both `end` and the last node of
    the body of the innermost DO that it ends. Where several DOs share it, it is the `end` of each, `shares_end` is true
    for all of them, and only the innermost body holds it.
    """

    kind: str
    head: Written
    branches: Tuple[Branch, ...]
    end: Optional[Written]
    shares_end: bool = False
    lead: Tuple[Node, ...] = ()

    @property
    def body(self) -> Tuple[Node, ...]:
        """What a DO or another block with one branch holds; of others that of the first branch."""
        return self.branches[0].body if self.branches else ()

    @property
    def name(self) -> str:
        """The construct's name in capitals, empty where it has none."""
        return self.head.item.name

    @property
    def first_line(self) -> int:
        """The line on which the block begins."""
        return self.head.item.first

    @property
    def last_line(self) -> int:
        """The line on which the block ends; that of its last statement where its end is missing.

        It is a line of the file with the block's head, as `first_line` is.
        """
        items = [written.item for written in self.statements()]
        return max(item.last for item in items if item.file == self.head.item.file)

    def statements(self) -> Iterator[Written]:
        """All statements of the block with its head, the heads of its branches and its end, in order of text."""
        return statements_of((self,))

    def parts(self) -> Iterator[Node]:
        """What the block is directly made of, in order of text."""
        yield self.head
        yield from self.lead
        for branch in self.branches:
            if branch.head is not self.head:
                yield branch.head
            yield from branch.body
        if self.end is not None and not _holds(self, self.end):
            yield self.end


#: What a body is made of.
Node = Union[Written, Block]


def statements_of(nodes: Tuple[Node, ...]) -> Iterator[Written]:
    """All statements of nodes, in order of text. Blocks may be nested thousands deep, so nothing here calls itself."""
    waiting: List[Iterator[Node]] = [iter(nodes)]
    while waiting:
        node = next(waiting[-1], None)
        if node is None:
            waiting.pop()
        elif isinstance(node, Block):
            waiting.append(node.parts())
        else:
            yield node


def loops_of(nodes: Tuple[Node, ...]) -> Iterator[Block]:
    """All DOs in nodes, outer ones before inner ones, in order of text."""
    for node in nodes:
        if isinstance(node, Block):
            if node.kind == "DO":
                yield node
            yield from loops_of(node.lead)
            for branch in node.branches:
                yield from loops_of(branch.body)


def depth_of(nodes: Tuple[Node, ...], of_all: bool = False) -> int:
    """How many DOs there are in one another, at most; with `of_all` how many blocks of any kind."""
    deepest = 0
    waiting: List[Tuple[Node, int]] = [(node, 0) for node in nodes]
    while waiting:
        node, depth = waiting.pop()
        if isinstance(node, Block):
            depth += of_all or node.kind == "DO"
            deepest = max(deepest, depth)
            inside = [*node.lead, *(one for branch in node.branches for one in branch.body)]
            waiting.extend((one, depth) for one in inside)
    return deepest


def _holds(block: Block, end: Written) -> bool:
    """Whether the end of a block is the last node of a body in it, so that it mustn't be counted twice."""
    last: Optional[Node] = block
    while isinstance(last, Block) and last.kind == "DO":
        last = last.body[-1] if last.body else None
    return last is end


def blocks_with_names(
    nodes: Tuple[Node, ...], outer: Optional[Block]
) -> Iterator[Tuple[int, Block]]:
    """The numbers of statements with the innermost block round each that has names of its own; `outer` is round all."""
    for node in nodes:
        if isinstance(node, Block):
            inner = node if _has_own_names(node) else outer
            heads = [node.head] if node.end is None else [node.head, node.end]
            nested = [*node.lead, *(one for branch in node.branches for one in (branch.head, *branch.body))]
            if outer is not None:
                yield from ((head.number, outer) for head in heads)
            yield from blocks_with_names(tuple(one for one in nested if one not in heads), inner)
        elif outer is not None:
            yield node.number, outer


def _has_own_names(block: Block) -> bool:
    """Whether names inside a block may stand for something else than outside."""
    return block.kind in ("ASSOCIATE", "BLOCK") or (
        block.kind == "SELECT" and not isinstance(block.head.statement, tree.SelectCase)
    )


@dataclass(frozen=True)
class Fault:
    """Why nothing is said about a unit or a loop: a class of refusals, the line that it's about, and words."""

    reason: str
    line: int
    words: str


@dataclass(frozen=True, eq=False)
class TypeDefinition:
    """A derived type in a specification part: `components` are its declarations, `bindings` what follows CONTAINS."""

    head: Written
    components: Tuple[Written, ...]
    bindings: Tuple[Written, ...]
    end: Optional[Written]


@dataclass(frozen=True, eq=False)
class InterfaceBlock:
    """An INTERFACE: `bodies` are the interfaces of procedures as units, `names` its MODULE PROCEDURE statements."""

    head: Written
    bodies: Tuple[Unit, ...]
    names: Tuple[Written, ...]
    end: Optional[Written]


#: What a specification part is made of. An ENUM is its own statements, one after the other.
Declared = Union[Written, TypeDefinition, InterfaceBlock]


@dataclass(eq=False)
class Unit:
    """A program unit or a procedure in one.

    `kind` is that of `tree.Head`; `PROGRAM` without a head for a main program that begins without PROGRAM. `name` is in
    capitals; empty for those without one.

    `specification` is all before the first statement that may be executable, with FORMAT, DATA and ENTRY among it. A
    statement function looks like an assignment, so it begins the body: who knows the arrays takes it out there.
    Declarations may wrongly come later: `statements()` has them all.

    `host` is the unit that contains this one, or the unit with the INTERFACE for a body of an interface. `faults` say
    that its structure or its declarations can't be known; then no loop of it may get a verdict.
    """

    kind: str
    name: str
    head: Optional[Written]
    specification: Tuple[Declared, ...]
    body: Tuple[Node, ...]
    end: Optional[Written]
    host: Optional[Unit] = None
    contained: Tuple[Unit, ...] = ()
    faults: Tuple[Fault, ...] = ()
    #: The first and the last line in the file itself, with those of contained procedures.
    first_line: int = 0
    last_line: int = 0
    #: The paths of the INCLUDEd files that it has statements of, without those of contained procedures.
    files: FrozenSet[str] = frozenset()

    def statements(self) -> Iterator[Written]:
        """Head, declarations, body and end, in order of text; not those of types, interfaces, contained procedures."""
        if self.head is not None:
            yield self.head
        for declared in self.specification:
            if isinstance(declared, Written):
                yield declared
        yield from statements_of(self.body)
        if self.end is not None:
            yield self.end

    def loops(self) -> Iterator[Block]:
        """All DOs of the unit's own body, outer ones before inner ones, in order of text."""
        return loops_of(self.body)

    @property
    def path(self) -> str:
        """The names of the unit and its hosts, the outermost first: `MODULE:WORK`, as reports show it."""
        return self.name if self.host is None else f"{self.host.path}:{self.name}"


@dataclass(eq=False)
class File:
    """A file that was read: `form` is `fixed` or `free`, `lines` are as they are written, without line ends."""

    path: str
    form: str
    lines: Tuple[str, ...]
    units: Tuple[Unit, ...] = ()
    marks: Tuple[Mark, ...] = ()
    #: The paths of INCLUDEd files that were found, in order.
    included: Tuple[str, ...] = ()

    def all_units(self) -> Iterator[Unit]:
        """All units, each before those that it contains, in order of text; not the bodies of interfaces."""
        waiting: List[Unit] = list(reversed(self.units))
        while waiting:
            unit = waiting.pop()
            yield unit
            waiting.extend(reversed(unit.contained))

    def marks_in(self, first: int, last: int, file: str = "") -> Tuple[Mark, ...]:
        """The marks that touch some lines."""
        return tuple(mark for mark in self.marks if mark.file == file and mark.first <= last and mark.last >= first)

    def marks_of(self, block: Block) -> Tuple[Mark, ...]:
        """The marks inside a block, with all those of INCLUDEd files that it has statements of."""
        file = block.head.item.file
        others = sorted({written.item.file for written in block.statements()} - {file})
        included = tuple(mark for mark in self.marks if mark.file in others)
        return self.marks_in(block.first_line, block.last_line, file) + included


