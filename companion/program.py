"""A program: its numbered statements, its loops and what its names stand for.

Both forms of a program are read: the text of a user, as docs/LANGUAGE.md allows it, and the text that ped prints.
Statements are numbered as ped numbers them: a logical IF is two statements, and an ELSE IF is an IF of its own.
"""

from __future__ import annotations

from bisect import bisect_right
from dataclasses import dataclass, field
from functools import cached_property
from typing import Dict, FrozenSet, Iterator, List, Optional, Sequence, Set, Tuple

from .expressions import value_of
from .lines import Directive, Span, Text, WrittenStatement, read_statements
from .references import Reference, references_of
from .statements import (
    Assignment, BlockIf, Declaration, Do, ElseIf, Form, LogicalIf, Name, Numbered, Parameter, Print, Private,
    ProgramName, Read, Save, Word, read_form,
)


@dataclass
class Statement:
    """A numbered statement: its text, its form, and the numbers of the loops and the IFs round it."""

    number: int
    text: Text
    form: Numbered
    loops: Tuple[int, ...]
    ifs: Tuple[int, ...]
    references: Tuple[Reference, ...] = ()

    @property
    def span(self) -> Span:
        """Where the statement stands."""
        return self.text.span

    @property
    def line(self) -> int:
        """The line at which the statement begins."""
        return self.text.start.line


@dataclass
class Loop:
    """A DO: its statement, its header, and the loops round it with itself as the last one."""

    number: int
    form: Do
    nest: Tuple[int, ...]
    directives: Tuple[Directive, ...]
    private: List[Name] = field(default_factory=list)
    #: The last statement of the body, the DO itself where the body has none.
    last: int = 0

    @property
    def level(self) -> int:
        """1 for an outermost loop."""
        return len(self.nest)

    @property
    def variable(self) -> str:
        """The name of the loop's variable."""
        return self.form.variable.name

    @property
    def rejected(self) -> List[str]:
        """The names that directives reject at the loop."""
        return [directive.name for directive in self.directives]

    def __contains__(self, statement: int) -> bool:
        """Whether a statement stands in the body."""
        return self.number < statement <= self.last


@dataclass
class Program:
    """A program that was read."""

    name: Optional[str] = None
    statements: List[Statement] = field(default_factory=list)
    loops: Dict[int, Loop] = field(default_factory=dict)
    constants: Dict[str, int] = field(default_factory=dict)
    arrays: Dict[str, Tuple[str, ...]] = field(default_factory=dict)
    saved: Set[str] = field(default_factory=set)
    #: For each IF with ELSE or ELSE IF the number that the first statement of that part has, or would have.
    else_parts: Dict[int, int] = field(default_factory=dict)
    #: What each loop assigns, where that was asked: kept by `subscripts.assigned_in`.
    assigned: Dict[int, FrozenSet[str]] = field(default_factory=dict)

    def statement(self, number: int) -> Statement:
        """The statement with a number."""
        return self.statements[number - 1]

    def reference(self, key: Tuple[int, int]) -> Reference:
        """The reference that the panes name by its statement and its number."""
        return self.statement(key[0]).references[key[1] - 1]

    def has_reference(self, key: Tuple[int, int], name: str) -> bool:
        """Whether there is a reference of this name with a statement and a number."""
        if not 1 <= key[0] <= len(self.statements):
            return False
        references = self.statement(key[0]).references
        return 1 <= key[1] <= len(references) and references[key[1] - 1].name == name

    def references(self) -> Iterator[Reference]:
        """All references in text order."""
        for statement in self.statements:
            yield from statement.references

    def uses(self, name: str) -> List[Reference]:
        """The references of a name in text order."""
        return self._by_name.get(name, [])

    def uses_in(self, loop: Loop, name: str) -> List[Reference]:
        """The references of a name in the body of a loop, in text order."""
        found = self.uses(name)
        numbers = self._statements_by_name.get(name, [])
        return found[bisect_right(numbers, loop.number):bisect_right(numbers, loop.last)]

    @cached_property
    def _by_name(self) -> Dict[str, List[Reference]]:
        found: Dict[str, List[Reference]] = {}
        for reference in self.references():
            found.setdefault(reference.name, []).append(reference)
        return found

    @cached_property
    def _statements_by_name(self) -> Dict[str, List[int]]:
        return {name: [one.statement for one in found] for name, found in self._by_name.items()}

    def loops_round(self, statement: int) -> List[Loop]:
        """The loops in whose body a statement stands, the outermost first."""
        return [self.loops[number] for number in self.statement(statement).loops]

    def inner_loops(self, loop: Loop) -> List[Loop]:
        """The loops in the body of a loop, in text order."""
        return [self.loops[number] for number in range(loop.number + 1, loop.last + 1) if number in self.loops]

    @property
    def variables(self) -> FrozenSet[str]:
        """The names of the variables of loops."""
        return frozenset(loop.variable for loop in self.loops.values())


def read_program(lines: Sequence[str]) -> Program:
    """Reads a program that ped has read."""
    reader = _Reader()
    for written in read_statements(lines):
        reader.take(written)
    return reader.finish()


@dataclass
class _Block:
    """A DO or an IF that is open: the number of its statement, and the label that ends a DO."""

    number: int
    is_loop: bool
    label: Optional[int] = None
    #: Whether this IF came by ELSE IF, so that its END IF ends the IF before it as well.
    chained: bool = False


def _numbered(form: Form) -> Optional[Numbered]:
    """A statement without a block that has a number; none where it has none."""
    if isinstance(form, (Assignment, Print, Read)):
        return form
    return form if isinstance(form, Word) and form == Word("STOP") else None


class _Reader:
    """Takes the statements of a program one after the other."""

    def __init__(self) -> None:
        self._program = Program()
        self._blocks: List[_Block] = []
        #: The numbers of the loops, and of the IFs, that are open.
        self._loops: Tuple[int, ...] = ()
        self._ifs: Tuple[int, ...] = ()

    def finish(self) -> Program:
        """The program, with the references of its statements."""
        program = self._program
        constants = frozenset(program.constants)
        #: For each nest of loops the names that are no references there.
        excluded: Dict[Tuple[int, ...], FrozenSet[str]] = {}
        for statement in program.statements:
            nest = statement.loops
            if nest not in excluded:
                excluded[nest] = constants.union(program.loops[number].variable for number in nest)
            loop = program.loops.get(statement.number)
            private = loop.private if loop is not None else []
            statement.references = references_of(statement.number, statement.form, private, excluded[nest])
        return program

    def take(self, written: WrittenStatement) -> None:
        """Takes a statement."""
        form = read_form(written.text)
        if isinstance(form, Word) and form.word in ("ELSE", "ENDIF", "ENDDO"):
            self._end_part(form.word, written.label)
        elif isinstance(form, (ProgramName, Declaration, Parameter, Save)):
            self._declare(form)
        elif isinstance(form, Private):
            self._program.loops[self._blocks[-1].number].private.extend(form.names)
        else:
            self._execute(form, written)
        if written.label is not None and not isinstance(form, Do):
            self._end_loops(written.label)

    def _declare(self, form: Form) -> None:
        program = self._program
        if isinstance(form, ProgramName):
            program.name = form.name
        elif isinstance(form, Declaration):
            program.arrays.update({one.name: one.bounds for one in form.declarators if one.bounds})
        elif isinstance(form, Parameter):
            for name, expression in form.values:
                value = value_of(expression, program.constants)
                if value is not None:
                    program.constants[name] = value
        elif isinstance(form, Save):
            program.saved.update(form.names)

    def _execute(self, form: Form, written: WrittenStatement) -> None:
        if isinstance(form, LogicalIf):
            self._open(_Block(self._number(BlockIf(form.condition), written.text), is_loop=False))
            inner = read_form(form.text)
            numbered = _numbered(inner)
            if numbered is not None:
                self._number(numbered, form.text)
            self._close_if()
        elif isinstance(form, (BlockIf, ElseIf)):
            if isinstance(form, ElseIf):
                self._begin_else()
            number = self._number(BlockIf(form.condition), written.text)
            self._open(_Block(number, is_loop=False, chained=isinstance(form, ElseIf)))
        elif isinstance(form, Do):
            number = self._number(form, written.text)
            self._open(_Block(number, is_loop=True, label=form.label))
            self._program.loops[number] = Loop(number, form, self._loops, written.directives, last=number)
        else:
            numbered = _numbered(form)
            if numbered is not None:
                self._number(numbered, written.text)

    def _number(self, form: Numbered, text: Text) -> int:
        """Gives a statement the next number."""
        program = self._program
        number = len(program.statements) + 1
        program.statements.append(Statement(number, text, form, self._loops, self._ifs))
        for loop in self._loops:
            program.loops[loop].last = number
        return number

    def _open(self, block: _Block) -> None:
        """Opens a DO or an IF."""
        self._blocks.append(block)
        if block.is_loop:
            self._loops = (*self._loops, block.number)
        else:
            self._ifs = (*self._ifs, block.number)

    def _close(self) -> _Block:
        """Closes the innermost DO or IF."""
        block = self._blocks.pop()
        if block.is_loop:
            self._loops = self._loops[:-1]
        else:
            self._ifs = self._ifs[:-1]
        return block

    def _end_part(self, word: str, label: Optional[int]) -> None:
        """Takes ELSE, END IF or END DO. ELSE leaves its IF open."""
        if word == "ELSE":
            self._begin_else()
        elif word == "ENDIF":
            self._close_if()
        elif word == "ENDDO" and not self._is_open(label):
            # With the label of an open DO it ends what a CONTINUE with this label ends.
            if self._blocks and self._blocks[-1].is_loop and self._blocks[-1].label is None:
                self._close()

    def _begin_else(self) -> None:
        """The next statement is the first of the ELSE part of the innermost IF."""
        if self._blocks:
            self._program.else_parts[self._blocks[-1].number] = len(self._program.statements) + 1

    def _is_open(self, label: Optional[int]) -> bool:
        """Whether a loop with this label is open."""
        return label is not None and any(block.label == label for block in self._blocks)

    def _close_if(self) -> None:
        """Closes the innermost IF, and those of whose ELSE part it is the ELSE IF."""
        while self._blocks and not self._blocks[-1].is_loop:
            if not self._close().chained:
                return

    def _end_loops(self, label: int) -> None:
        """Ends the open loops with a label."""
        while self._blocks and self._blocks[-1].is_loop and self._blocks[-1].label == label:
            self._close()
