"""A program as FORTRAN in fixed form with OpenMP directives, as `gfortran -fopenmp` reads it.

What changes of the printed program:

- A PARALLEL DO becomes a DO after a directive `C$OMP PARALLEL DO`. The PRIVATE clause names the scalars of the PRIVATE
  list, and the variables of the loops inside, which are private in ped without being named. A loop inside a loop with a
  directive gets none, unless this is wished: there a directive costs more than it gives.
- A DO whose list of sums is live gets a directive, too, with a clause REDUCTION(+:..) of the names in the list. Its
  variable has no value after it then. ped accepts the list only where nothing needs that value.
- PRIVATE is left out. The scalars that a DO inside a loop with a directive names are private to that loop, too, where
  nothing else in it uses them. The header of such a DO is outside of it, so a read there is another use. A DO outside
  all of these loops needs no copies, since its iterations come one by one.
- The header of a loop with a directive may read a name that is private to the loop, as in `PARALLEL DO I = I, 9`. Then
  the private one gets a new name.
- PROGRAM is left out where its name is also that of a constant or of a called function. Names that FORTRAN or a
  compiler takes for something else are replaced (companion/renaming.py); so are some constants (folding.py) and
  comments (sentinels.py).
- IMPLICIT INTEGER comes first where a constant gets its type only after its value. Large arrays are put into SAVE, since
  compilers may otherwise put them on the stack, which they overflow.
"""

from __future__ import annotations

import textwrap
from typing import Dict, Iterator, List, Mapping, NamedTuple, Optional, Sequence, Set, Tuple

from .estimates import Condition
from .expressions import names_in, value_of
from .folding import Folding, bounds
from .lines import FIRST_COLUMN, LAST_COLUMN, Place, WrittenStatement, is_comment, read_statements
from .program import Loop, Program
from .renaming import Names, called_functions, clashing_names, renamed
from .sentinels import harmless
from .statements import Declaration, Do, Form, Other, Parameter, Private, ProgramName, Save, Word, read_form

_WIDTH = LAST_COLUMN - FIRST_COLUMN + 1
_MARGIN = " " * (FIRST_COLUMN - 1)
_SENTINEL = "C$OMP"
#: How many elements the arrays of a program may have that aren't in SAVE; more are put there.
_MOST_ELEMENTS = 2**16

#: For each loop whose list of sums is live the names in it.
Sums = Mapping[int, Sequence[str]]


class Wishes(NamedTuple):
    """What a user wants of the translation."""

    #: Print the variables in SAVE at the end.
    live: bool = False
    #: Write a directive at every parallel loop, and not at the outermost ones alone.
    every: bool = False
    #: Leave out directives whose threads don't pay, as far as the text or the counts of a run tell it.
    paying: bool = False


class Choice(NamedTuple):
    """The loops that get a directive; of some the iterations or the condition from which on threads start; remarks."""

    loops: Mapping[int, Loop]
    least: Mapping[int, int] = {}
    remarks: Tuple[str, ...] = ()
    conditions: Mapping[int, Condition] = {}


def has_directive(text: str) -> bool:
    """Whether a translated program has a directive."""
    return any(line.startswith(_SENTINEL) for line in text.split("\n"))


class Translated(NamedTuple):
    """A translated program: its lines, and the options of gfortran with which it is to be compiled."""

    lines: List[str]
    options: Tuple[str, ...]


def directed_loops(program: Program, sums: Sums, every: bool) -> Dict[int, Loop]:
    """The loops that get a directive: parallel ones and those with live sums, but for those in another one of them."""
    loops = {loop.number: loop for loop in program.loops.values() if loop.form.parallel or sums.get(loop.number)}
    return {
        number: loop for number, loop in loops.items()
        if every or not any(outer in loops for outer in loop.nest[:-1])
    }


def translate(
    lines: Sequence[str], program: Program, sums: Sums, wishes: Wishes, notes: Mapping[int, Sequence[str]],
    choice: Optional[Choice] = None,
) -> Translated:
    """A printed program as FORTRAN with OpenMP directives.

    `notes` are comments about loops, by their statements; they are written before the loop's directive.
    """
    chosen = choice or Choice(directed_loops(program, sums, wishes.every))
    translation = _Translation(lines, program, sums, wishes, notes, chosen)
    translated = list(translation.lines())
    options = ["-fopenmp", "-O2"] if chosen.loops else ["-O2"]
    if sums:
        # Sums may leave 32 bits on the way, in another order than the program's.
        options.append("-fwrapv")
    if translation.folding.leaves_range:
        options.append("-fno-range-check")
    return Translated(_heading(options, chosen.remarks) + translated, tuple(options))


def _heading(options: Sequence[str], remarks: Sequence[str]) -> List[str]:
    rows = ["C     WRITTEN BY PEDX OMP. TO COMPILE:", f"C     gfortran {' '.join(options)} -o NAME NAME.f"]
    return rows + [row for remark in remarks for row in _comment(f"PEDX: {remark.upper()}.")]


class _Written(NamedTuple):
    """A statement: as it is written, its form, and its text from column 7 on with its blanks."""

    written: WrittenStatement
    form: Form
    text: str


class _Translation:
    """The lines of a printed program, statement by statement."""

    def __init__(
        self, lines: Sequence[str], program: Program, sums: Sums, wishes: Wishes, notes: Mapping[int, Sequence[str]],
        choice: Choice,
    ) -> None:
        self._lines = lines
        self._program = program
        self._sums = sums
        self._wishes = wishes
        self._notes = notes
        self._numbers = {statement.line: statement.number for statement in program.statements}
        self._statements = [
            _Written(written, read_form(written.text), self._text(written)) for written in read_statements(lines)
        ]
        self._directed = choice.loops
        self._least = choice.least
        self._conditions = choice.conditions
        #: For each loop the names of its PRIVATE list.
        self._listed = {number: {name.name for name in loop.private} for number, loop in program.loops.items()}
        texts = [statement.text for statement in self._statements]
        self._names = Names(texts)
        called = called_functions(texts)
        clashing = clashing_names(program, [(one.form, one.text) for one in self._statements], called)
        self._new_names = {name: self._names.new() for name in clashing}
        #: For each loop with a directive the new names of what is private to it and read in its header.
        self._inner_names = {number: self._renamed_inside(loop) for number, loop in self._directed.items()}
        #: Names that the program itself can't have.
        self._program_names = called.union(program.constants)
        self._zero_name: Optional[str] = None
        self.folding = Folding(program.constants, self._zero)

    def lines(self) -> Iterator[str]:
        """The translated lines."""
        done = 0
        typed = self._needs_types()
        last_declaration = self._last_declaration()
        for statement in self._statements:
            written = statement.written
            if typed and not isinstance(statement.form, ProgramName):
                yield f"{_MARGIN}IMPLICIT INTEGER (A-Z)"
                typed = False
            yield from map(harmless, self._lines[done:written.first_line - 1])
            yield from self._translated(statement)
            if statement is last_declaration:
                yield from self._large_arrays()
            done = written.last_line
        yield from map(harmless, self._lines[done:])

    def _translated(self, statement: _Written) -> Iterator[str]:
        form = statement.form
        line = statement.written.first_line
        number = self._numbers.get(line, 0)
        if self._wishes.live and form in (Word("STOP"), Word("END")):
            yield from self._live_lines()
        if isinstance(form, Private) or isinstance(form, ProgramName) and form.name in self._program_names:
            return
        names = self._names_at(number)
        text = renamed(form, self._repaired(statement), names)
        loop = self._program.loops.get(number)
        if loop is not None:
            yield from self._before(loop, names, text)
            variable = self._names_in(loop).get(loop.variable, loop.variable)
            text = text.replace("PARALLEL DO", "DO", 1)
            text = text.replace(f"DO {names.get(loop.variable, loop.variable)} =", f"DO {variable} =", 1)
        yield from _cut(self._lines[line - 1][:FIRST_COLUMN - 1], text)

    def _before(self, loop: Loop, names: Mapping[str, str], text: str) -> Iterator[str]:
        """The lines before a loop with this text: what is noted of it, and its directive, where it has one."""
        if loop.number not in self._directed:
            return
        for note in self._notes.get(loop.number, ()):
            yield from _comment(note)
        inner = self._names_in(loop)
        private = [inner.get(name, name) for name in self._private_names(loop)]
        sums = [names.get(name, name) for name in self._sums.get(loop.number, ())]
        condition = self._conditions.get(loop.number)
        clause = condition.text(names) if condition is not None else self._condition(loop, text)
        yield from _directive(private, sums, clause)

    def _condition(self, loop: Loop, text: str) -> str:
        """The condition of the clause IF: whether a loop with this text has as many iterations as are wanted.

        A difference is one of DOUBLE PRECISION, since the bounds of a loop without iterations may be far apart.
        """
        least = self._least.get(loop.number)
        if least is None:
            return ""
        first, last, *steps = _bounds(text)
        step = value_of(loop.form.step, self._program.constants) if loop.form.step is not None else 1
        if step is None or step == 0:
            return f"({last}-1D0*({first})+{steps[0]})/({steps[0]}).GE.{least}"
        known = value_of(loop.form.first, self._program.constants)
        far = (least - 1) * step
        if known is not None and abs(known + far) < 2**31:
            return f"{last}.{'GE' if step > 0 else 'LE'}.{known + far}"
        return f"{last}-1D0*({first}).GE.{far}" if step > 0 else f"{first}-1D0*({last}).GE.{-far}"

    # Statements

    def _text(self, written: WrittenStatement) -> str:
        """What a statement has from column 7 on, its indentation included."""
        columns = [self._lines[line - 1][FIRST_COLUMN - 1:LAST_COLUMN] for line in self._lines_of(written)]
        return "".join(piece.ljust(_WIDTH) for piece in columns[:-1]) + columns[-1]

    def _lines_of(self, written: WrittenStatement) -> List[int]:
        """The numbers of the lines of a statement."""
        lines = range(written.first_line, written.last_line + 1)
        return [line for line in lines if not is_comment(self._lines[line - 1])]

    def _repaired(self, statement: _Written) -> str:
        """The text of a statement with other constants, where a compiler would compute them otherwise."""
        lines = self._lines_of(statement.written)

        def index(place: Place) -> int:
            return lines.index(place.line) * _WIDTH + place.column - FIRST_COLUMN

        text = statement.text
        repairs = list(self.folding.repairs(statement.form, statement.written.text))
        for repair in sorted(repairs, key=lambda one: one.span, reverse=True):
            text = text[:index(repair.span.start)] + repair.text + text[index(repair.span.end) + 1:]
        return text

    def _zero(self) -> str:
        """The name of the variable that takes the place of constant zeros."""
        if self._zero_name is None:
            self._zero_name = self._names.new()
        return self._zero_name

    # Names

    def _private_names(self, loop: Loop) -> List[str]:
        """The names of the PRIVATE clause of a loop."""
        inner = self._program.inner_loops(loop)
        used = self._used_outside(loop)
        names = [name.name for name in loop.private] + [one.variable for one in inner]
        names += [name.name for one in inner for name in one.private if name.name not in used]
        return [name for name in dict.fromkeys(names) if name != loop.variable]

    def _used_outside(self, loop: Loop) -> Set[str]:
        """What a loop uses outside the bodies of those loops in it that have it in PRIVATE.

        The list of such a loop counts as a write in its header, and is no use.
        """
        return {
            reference.name
            for statement in self._program.statements[loop.number:loop.last]
            for reference in statement.references
            if not (reference.writes and isinstance(statement.form, Do))
            and not any(reference.name in self._listed[inner] for inner in statement.loops if inner > loop.number)
        }

    def _renamed_inside(self, loop: Loop) -> Dict[str, str]:
        """New names for what is private to a loop with a directive, and read in its header."""
        read = {*names_in(loop.form.first), *names_in(loop.form.last)}
        private = {loop.variable, *self._private_names(loop)}
        return {name: self._names.new() for name in sorted(read & private)}

    def _names_at(self, number: int) -> Dict[str, str]:
        """The new names that hold at a statement, by those of the program."""
        loops = self._program.statement(number).loops if number else ()
        names = dict(self._new_names)
        for loop in loops:
            names.update(self._inner_names.get(loop, {}))
        return names

    def _names_in(self, loop: Loop) -> Dict[str, str]:
        """The new names that hold in the body of a loop."""
        return {**self._names_at(loop.number), **self._inner_names.get(loop.number, {})}

    # Declarations

    def _needs_types(self) -> bool:
        """Whether a constant gets its type only after its value: FORTRAN would take it for REAL there."""
        typed: Set[str] = set()
        for statement in self._statements:
            form = statement.form
            if isinstance(form, Other) and statement.written.text.letters.startswith("IMPLICIT"):
                return False
            if isinstance(form, Declaration):
                typed.update(one.name for one in form.declarators)
            elif isinstance(form, Parameter):
                if any(not "I" <= name[0] <= "N" and name not in typed for name, _ in form.values):
                    return True
        return False

    def _last_declaration(self) -> Optional[_Written]:
        declarations = [one for one in self._statements if isinstance(one.form, (Declaration, Parameter, Save))]
        return declarations[-1] if declarations else None

    def _large_arrays(self) -> Iterator[str]:
        """A SAVE of the arrays that aren't in one yet, where they are large."""
        sizes = {name: size for name, size in self._sizes() if name not in self._program.saved}
        if sum(sizes.values()) > _MOST_ELEMENTS:
            yield from _cut(_MARGIN, f"SAVE {', '.join(sizes)}")

    def _sizes(self) -> Iterator[Tuple[str, int]]:
        """The declared arrays with the numbers of their elements."""
        for statement in self._statements:
            if isinstance(statement.form, Declaration):
                values = (value_of(bound, self._program.constants) or 0 for bound in bounds(statement.written.text))
                for declarator in statement.form.declarators:
                    size = 1
                    for bound in declarator.bounds:
                        least = next(values) if ":" in bound else 1
                        size *= next(values) - least + 1
                    if declarator.bounds:
                        yield declarator.name, size

    def _live_lines(self) -> Iterator[str]:
        for name in sorted(self._program.saved):
            yield from _cut(_MARGIN, f"PRINT *, 'live {name}', {self._new_names.get(name, name)}")


def _comment(words: str) -> Iterator[str]:
    """A comment, in as many lines as it takes."""
    for line in textwrap.wrap(words, LAST_COLUMN - FIRST_COLUMN + 1, break_long_words=False):
        yield f"C     {line}"


def _bounds(text: str) -> List[str]:
    """The bounds of a DO with this text, and its increment, where it has one."""
    parts = [""]
    depth = 0
    for letter in text.partition("=")[2].replace(" ", ""):
        depth += (letter == "(") - (letter == ")")
        if letter == "," and depth == 0:
            parts.append("")
        else:
            parts[-1] += letter
    return parts


def _directive(private: Sequence[str], sums: Sequence[str], condition: str) -> Iterator[str]:
    """The directive before a parallel loop, cut between names and within a condition."""
    row = f"{_SENTINEL} PARALLEL DO"
    for piece in [*_pieces(condition), *_clause("PRIVATE(", private), *_clause("REDUCTION(+:", sums)]:
        if len(row) + len(piece) > LAST_COLUMN:
            yield row
            row = f"{_SENTINEL}&"
        row += piece
    yield row


def _pieces(condition: str) -> List[str]:
    """The pieces of a clause IF; blanks mean nothing in fixed form, so a long condition may be cut anywhere."""
    text = f" IF({condition})" if condition else ""
    return [text[begin:begin + _WIDTH] for begin in range(0, len(text), _WIDTH)]


def _clause(front: str, names: Sequence[str]) -> List[str]:
    """The pieces of a clause, one for each name; none where there are no names."""
    pieces = [f"{name}," for name in names[:-1]] + [f"{name})" for name in names[-1:]]
    return [f" {front}{piece}" if index == 0 else piece for index, piece in enumerate(pieces)]


def _cut(front: str, text: str) -> Iterator[str]:
    """A statement in lines of fixed form; `front` is columns 1 to 6 of the first one."""
    for begin in range(0, max(len(text), 1), _WIDTH):
        yield (front if begin == 0 else "     &") + text[begin:begin + _WIDTH]
