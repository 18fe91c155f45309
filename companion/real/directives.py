"""OpenMP directives in a user's own text: what they say, where they go, and why one is left out.

A directive is put on lines of its own before the first line of its DO. Every other byte of the file stays.
"""

from __future__ import annotations

import re
from dataclasses import dataclass
from typing import Iterator, List, Mapping, Optional, Sequence, Set, Tuple

from . import tree, units
from .source import Mark
from .symbols import Storage, Symbol, Symbols

#: The last column of a directive, for fixed and free form. Free form has 132, but shorter lines are easier to read.
_LAST_COLUMNS: Mapping[str, int] = {"fixed": 72, "free": 100}
#: The deepest indentation of a directive in free form, so that its lines have room for names.
_DEEPEST = 24
_ATOM = re.compile(r"\.[A-Z]+\.|[A-Z_$][A-Z0-9_$]*|[0-9]+|\S", re.IGNORECASE)


@dataclass(frozen=True)
class Clauses:
    """What a loop's directive has to say. All names are in capitals.

    Names in `last` are private, and each has a value before the loop and after it: FIRSTPRIVATE and LASTPRIVATE. A
    name in `last_alone` is in LASTPRIVATE alone: the loop's own variable. A name in `conditional` has the value of
    the last iteration that assigns it, which OpenMP has from 5.0 on. `reductions` are operators with names,
    `inductions` names with the text of their steps.
    """

    private: Tuple[str, ...] = ()
    last: Tuple[str, ...] = ()
    last_alone: Tuple[str, ...] = ()
    conditional: Tuple[str, ...] = ()
    reductions: Tuple[Tuple[str, str], ...] = ()
    inductions: Tuple[Tuple[str, str], ...] = ()

    @property
    def names(self) -> Tuple[str, ...]:
        """All names in the clauses, each once."""
        reduced = [name for _, name in self.reductions]
        moving = [name for name, _ in self.inductions]
        return tuple(dict.fromkeys([*self.private, *self.last, *self.last_alone, *self.conditional, *reduced, *moving]))


def directive_text(clauses: Clauses, form: str) -> str:
    """A loop's directive in one line, as notes show it."""
    text = "!$OMP PARALLEL DO" + "".join(" " + "".join(pieces) for pieces in _clauses(clauses))
    return text.lower() if form == "free" else text


def directive_lines(clauses: Clauses, form: str, indentation: int = 0, schedule: str = "") -> List[str]:
    """A loop's directive in lines, without line ends: in fixed form up to column 72, in free form up to column 100.

    With `schedule` it has that clause SCHEDULE, too.
    """
    pieces = _pieces(clauses) + ([f" SCHEDULE({schedule})"] if schedule else [])
    if form == "fixed":
        return _cut("!$OMP PARALLEL DO", "!$OMP&", "", pieces, _LAST_COLUMNS[form])
    margin = " " * min(indentation, _DEEPEST)
    pieces = [piece.lower() for piece in pieces]
    return _cut(margin + "!$omp parallel do", margin + "!$omp&", " &", pieces, _LAST_COLUMNS[form])


def _cut(first: str, following: str, ending: str, pieces: Sequence[str], width: int) -> List[str]:
    """Pieces in lines. One that has no room in a line of its own is cut between its names and operators."""
    rows = [first]
    for piece in pieces:
        fits_alone = len(following) + len(piece) + len(ending) <= width
        for part in [piece] if fits_alone else _atoms(piece):
            if len(rows[-1]) + len(part) + len(ending) > width:
                rows.append(following)
            rows[-1] += part
    return [row + ending for row in rows[:-1]] + rows[-1:]


def _atoms(piece: str) -> List[str]:
    """A piece in parts that a line may end after; a blank before the piece stays with its first part."""
    atoms = [match.group() for match in _ATOM.finditer(piece)]
    return [" " + atoms[0], *atoms[1:]] if piece.startswith(" ") else atoms


def _pieces(clauses: Clauses) -> List[str]:
    """The parts of all clauses that a line may end after, each clause with a blank before it."""
    return [
        " " + piece if index == 0 else piece for pieces in _clauses(clauses) for index, piece in enumerate(pieces)
    ]


def _clauses(clauses: Clauses) -> Iterator[List[str]]:
    """The clauses, each in parts."""
    operators = list(dict.fromkeys(operator for operator, _ in clauses.reductions))
    steps = list(dict.fromkeys(step for _, step in clauses.inductions))
    for front, names, back in [
        ("PRIVATE(", clauses.private, ")"),
        ("FIRSTPRIVATE(", clauses.last, ")"),
        ("LASTPRIVATE(", (*clauses.last, *clauses.last_alone), ")"),
        ("LASTPRIVATE(CONDITIONAL:", clauses.conditional, ")"),
        *((f"REDUCTION({operator}:", [name for one, name in clauses.reductions if one == operator], ")")
          for operator in operators),
        *(("LINEAR(", [name for name, one in clauses.inductions if one == step], f":{step})") for step in steps),
    ]:
        if names:
            pieces = [f"{name}," for name in names[:-1]] + [f"{names[-1]}{back}"]
            yield [front + pieces[0], *pieces[1:]]


# --- Where a directive goes ----------------------------------------------------------------------------------------


def with_directives(text: str, directives: Mapping[int, Sequence[str]]) -> str:
    """A text with lines put in before some of its lines, which are counted from 1.

    A new line ends as the line after it does.
    """
    lines = text.split("\n")
    found: List[str] = []
    for number, line in enumerate(lines, 1):
        end = "\r\n" if line.endswith("\r") else "\n"
        found += [row + end for row in directives.get(number, ())]
        found.append(line + "\n" if number < len(lines) else line)
    return "".join(found)


def indentation_of(line: str) -> int:
    """How many blanks a line of free form begins with; a tab counts as one."""
    return len(line) - len(line.lstrip(" \t"))


def outermost(loops: Sequence[units.Block]) -> List[units.Block]:
    """Those of some loops that are in no other one of them; they come in order of text, outer ones first."""
    found: List[units.Block] = []
    for loop in loops:
        if not any(_holds(outer, loop) for outer in found):
            found.append(loop)
    return found


def _holds(outer: units.Block, inner: units.Block) -> bool:
    return any(block is inner for branch in outer.branches for block in units.loops_of(branch.body))


# --- Why a directive is left out -----------------------------------------------------------------------------------


def obstacle(
    loop: units.Block, file: units.File, symbols: Symbols, clauses: Clauses, openmp: str = "4.5",
) -> Optional[str]:
    """Why a loop of a unit gets no directive, though its iterations may run at once; none where it gets one.

    `symbols` are those of the loop's unit, `openmp` is the version that is written for.
    """
    return (
        _obstacle_of_text(loop, symbols.unit)
        or _obstacle_of_unit(file, symbols.unit)
        or _obstacle_of_names(loop, symbols, clauses)
        or ("LASTPRIVATE(CONDITIONAL:..) is OpenMP 5.0" if clauses.conditional and openmp < "5.0" else None)
    )


def _obstacle_of_text(loop: units.Block, unit: units.Unit) -> Optional[str]:
    item = loop.head.item
    if item.file:
        return f"it is in {item.file}, which is INCLUDEd"
    for other in unit.statements():
        is_here = not other.item.file and other.item.first <= item.last and item.first <= other.item.last
        if is_here and other is not loop.head:
            return "another statement is on its line"
    if any(_is_concurrent(other) and (other is loop or _holds(other, loop)) for other in unit.loops()):
        return "a DO CONCURRENT has no directive, and none in it"
    if item.label is not None:
        return f"a jump to its label {item.label} would lead past the directive"
    if loop.shares_end and any(outer.end is loop.end and _holds(outer, loop) for outer in unit.loops()):
        return "it ends with the same statement as a DO round it"
    return None


def _is_concurrent(loop: units.Block) -> bool:
    statement = loop.head.statement
    return isinstance(statement, tree.Do) and isinstance(statement.control, tree.Concurrent)


def _obstacle_of_unit(file: units.File, unit: units.Unit) -> Optional[str]:
    for mark in file.marks:
        if mark.kind == "directive" and "THREADPRIVATE" in mark.text.upper().replace(" ", ""):
            return f"THREADPRIVATE (line {mark.first}) gives each thread variables of its own"
    # A main program without a head begins with its first statement, which a directive may come before.
    before = [other.last_line for other in file.units if other.last_line < unit.first_line]
    begin = max(before, default=0) if unit.host is None else unit.first_line
    for mark in file.marks:
        is_inside = begin < mark.first <= unit.last_line
        if mark.kind == "directive" and mark.file:
            return f"{mark.file}, which is INCLUDEd, has a directive (line {mark.first})"
        if mark.kind == "directive" and is_inside:
            return f"its unit has a directive of its own (line {mark.first})"
        if mark.kind == "conditional" and (mark.file or is_inside or _is_declared_round(mark, unit)):
            return f"a line with !$ is a statement where OpenMP is on, and wasn't read (line {mark.first})"
    head = unit.head.statement if unit.head is not None else None
    if isinstance(head, tree.Head) and head.prefixes & {"PURE", "ELEMENTAL"} and "IMPURE" not in head.prefixes:
        return "its procedure is PURE"
    return None


def _is_declared_round(mark: Mark, unit: units.Unit) -> bool:
    """Whether a mark is in the declarations or in the body of a unit that contains this one."""
    host = unit.host
    while host is not None:
        inner = min((one.first_line for one in host.contained), default=host.last_line)
        if host.first_line <= mark.first <= inner:
            return True
        host = host.host
    return False


def _obstacle_of_names(loop: units.Block, symbols: Symbols, clauses: Clauses) -> Optional[str]:
    """Why a name can't be in a clause; the variables of DOs are private without being named."""
    in_functions: Set[str] = set()
    for function in symbols.statement_functions.values():
        in_functions.update(set(tree.names_in(function.value)) - set(function.arguments))
    for name in dict.fromkeys([*clauses.names, *_variables(loop)]):
        words = _hindrance(symbols.get(name))
        if words is None and name in in_functions:
            words = "is in a statement function"
        if words is not None:
            return f"{name} {words}, so it can't be in a clause"
    return None


def _variables(loop: units.Block) -> Iterator[str]:
    """The variables of a loop and of the DOs in it."""
    for one in (loop, *(inner for branch in loop.branches for inner in units.loops_of(branch.body))):
        statement = one.head.statement
        control = statement.control if isinstance(statement, tree.Do) else None
        if isinstance(control, tree.Counted):
            yield tree.root_of(control.variable)


def _hindrance(symbol: Symbol) -> Optional[str]:
    """What keeps a name out of clauses: rules of OpenMP, and absent arguments, which have no value to copy."""
    attributes = symbol.attributes
    if symbol.storage is Storage.UNKNOWN or not symbol.is_variable:
        return "isn't known to be a variable"
    if symbol.group or attributes & {"CRAY POINTEE", "CRAY POINTER"}:
        return "shares its storage with another name"
    if symbol.bounds and isinstance(symbol.bounds[-1].upper, tree.Star):
        return "is an array of assumed size"
    for attribute, words in _HINDRANCES:
        if attribute in attributes:
            return words
    return None


_HINDRANCES = (
    ("INTENT(IN)", "has INTENT(IN)"),
    ("OPTIONAL", "may be absent"),
    ("NAMELIST", "is in a NAMELIST"),
    ("CODIMENSION", "is a coarray"),
    ("POINTER", "is a POINTER"),
    ("PROTECTED", "is PROTECTED"),
)
