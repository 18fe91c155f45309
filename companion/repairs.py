"""Repairs of a refused program, by which ped tells its further refusals.

ped names one refusal of a file. Here a statement that is refused gives way to one that keeps the loops and the IFs, a
name that is REAL gets a declaration, a block that is open gets its end; and ped is asked again. The repaired text is
for these questions alone. A later refusal may come of a repair: then it is told of which line.
"""

from __future__ import annotations

import re
import time
from dataclasses import dataclass, field
from typing import Dict, Iterator, List, NamedTuple, Optional, Set, Tuple, Union

from .lines import (
    FIRST_COLUMN, LAST_COLUMN, Place, WrittenStatement, is_comment, is_continuation, read_statements, split_lines,
)
from .ped import Ped
from .questions import text_of
from .statements import Assignment, Do, read_form
from .statuses import CompanionError, ProgramRefused
from .suspects import Suspect, suspect

#: How many refusals of a file are told, and for how many seconds further ones are looked for.
MOST = 50
_SECONDS = 10.0

#: Refusals that may come of a repair of the statements that begin and end loops, IFs and units.
_OF_STRUCTURE = (7, 9, 10, 11, 12, 20, 21, 22, 23, 24)
#: Refusals that may come of a declaration that was taken out.
_OF_NAMES = (14, 15, 16, 17, 18, 22, 23)
_LIMITS = (13, 19)
_REAL_NAME = 14
_OPEN_BLOCK = 9

_DECLARING = (
    "INTEGER", "DIMENSION", "PARAMETER", "SAVE", "IMPLICIT", "REAL", "DOUBLEPRECISION", "COMPLEX", "LOGICAL",
    "CHARACTER", "COMMON", "EQUIVALENCE", "DATA", "EXTERNAL", "INTRINSIC",
)
_STRUCTURAL = (
    "ELSE", "ENDIF", "ENDDO", "END", "PROGRAM", "SUBROUTINE", "FUNCTION", "INTEGERFUNCTION", "ENTRY", "BLOCKDATA",
)
_DOING = ("READ", "PRINT", "WRITE", "CALL", "GOTO", "STOP", "RETURN", "CONTINUE", "IF(")
_HEADER = re.compile(r"(PARALLEL)?DO([0-9]*),?([A-Z][A-Z0-9]*)=")
_ASSIGNED = re.compile(r"[A-Z][A-Z0-9]*(\(.*\))?=")
_WORD = re.compile(r"[A-Z][A-Z0-9]*")


@dataclass(frozen=True)
class Refused:
    """A refusal of a file: its number and its name, where it stands, what it is about, and what it may come of."""

    number: int
    name: str
    where: Suspect
    #: The lines whose repair it may come of.
    causes: Tuple[int, ...] = ()

    @property
    def because(self) -> str:
        """What it may come of, in words; nothing where it stands by itself."""
        lines = ", ".join(str(line) for line in self.causes)
        what = "line" if len(self.causes) == 1 else "one of the lines"
        return f" (perhaps only because of {what} {lines})" if lines else ""


class _Row(NamedTuple):
    """A row of a repaired text, with the line that it comes from, or for which it was put in."""

    text: str
    line: int
    is_put_in: bool = False


@dataclass
class _Repaired:
    """A text that is being repaired."""

    rows: List[_Row]
    #: The lines whose repair may have changed which statements stand in which, and those of declarations with names.
    structure: Set[int] = field(default_factory=set)
    declarations: Dict[int, Set[str]] = field(default_factory=dict)
    #: The names that got a declaration, and how often each refusal has come.
    declared: Set[str] = field(default_factory=set)
    met: Dict[Tuple[int, Union[int, str, None]], int] = field(default_factory=dict)

    @property
    def lines(self) -> List[str]:
        """The text as it is now."""
        return [row.text for row in self.rows]


def refusals(ped: Ped, first: ProgramRefused) -> Tuple[List[Refused], bool]:
    """The refusals of a file, the first one that of ped; and whether these are all that can be told."""
    text = _Repaired([_Row(line, number) for number, line in enumerate(split_lines(first.source), 1)])
    found: List[Refused] = []
    refusal: Optional[ProgramRefused] = first
    begin = time.monotonic()
    while refusal is not None:
        row = refusal.line
        where = _placed(text, suspect(text.lines, refusal.number, row), row)
        key = refusal.number, where.place.line if refusal.number != _REAL_NAME else where.name
        text.met[key] = text.met.get(key, 0) + 1
        one = Refused(refusal.number, refusal.name, where, _causes(text, refusal.number, where))
        is_told = any((other.number, other.where) == (one.number, where) for other in found)
        # What is refused of a row that was put in says nothing of the file.
        is_told = is_told or 1 <= row <= len(text.rows) and text.rows[row - 1].is_put_in
        if not is_told and text.met[key] == 1 and (where.name is None or where.name not in text.declared):
            found.append(one)
        is_enough = len(found) >= MOST or time.monotonic() - begin > _SECONDS
        if is_enough or not _repair(text, refusal.number, row, where.name, text.met[key]):
            return found, False
        try:
            ped.show(text_of(text.lines))
            refusal = None
        except ProgramRefused as further:
            refusal = further
        except CompanionError:
            # What is known by now is told all the same.
            return found, False
    return found, True


def _placed(text: _Repaired, where: Suspect, row: int) -> Suspect:
    """Where a refusal of a repaired text stands in the file."""
    line = text.rows[row - 1].line if 1 <= row <= len(text.rows) else row
    return Suspect(Place(max(line, 1), where.place.column), where.name)


def _causes(text: _Repaired, number: int, where: Suspect) -> Tuple[int, ...]:
    """The lines whose repair a refusal may come of."""
    causes: Set[int] = set()
    if number in _OF_STRUCTURE:
        causes.update(text.structure)
    if number in _OF_NAMES:
        causes.update(
            line for line, names in text.declarations.items() if not names or where.name is None or where.name in names
        )
    return tuple(sorted(causes.difference([where.place.line])))


def _repair(text: _Repaired, number: int, row: int, about: Optional[str], times: int) -> bool:
    """Repairs what is refused at a row, each time more thoroughly; answers whether anything can be done."""
    if number in _LIMITS and times == 1 and not _is_own_limit(text, row) or times > 3:
        return False
    if number == _OPEN_BLOCK:
        return _close(text, row)
    if not 1 <= row <= len(text.rows):
        return False
    if number == _REAL_NAME and about is not None and times == 1:
        _declare(text, row, about)
        return True
    if number <= 2 and times == 1 and _shifted(text, row):
        return True
    return _replace(text, row, times > 1)


def _is_own_limit(text: _Repaired, row: int) -> bool:
    """Whether a limit may be passed by one statement; else each later statement passes it, too."""
    return len(read_statements(text.lines[:row])) < 4000


def _shifted(text: _Repaired, row: int) -> bool:
    """Puts blanks in the place of a tab, or a statement that begins too early into column 7."""
    line, number, _ = text.rows[row - 1]
    if "\t" in line:
        front, _, rest = line.partition("\t")
        new = (front.ljust(FIRST_COLUMN - 1) if len(front) < FIRST_COLUMN else front + " ") + rest.replace("\t", " ")
    else:
        digits, rest = re.fullmatch(r"([ 0-9]{0,5})(.*)", line, re.DOTALL).groups()  # type: ignore[union-attr]
        label = digits if digits.strip(" 0") and not is_continuation(line) else ""
        new = label.ljust(5)[:5] + (line[5:6] if is_continuation(line) and not rest[:1].isalpha() else " ")
        new += line[6:] if is_continuation(line) and not rest[:1].isalpha() else rest.strip()
    if len(new.rstrip()) > LAST_COLUMN or new == line:
        return False
    text.rows[row - 1] = _Row(new, number)
    return True


def _statement_at(text: _Repaired, row: int) -> Optional[WrittenStatement]:
    """The statement of which a row is a part."""
    found = [one for one in read_statements(text.lines) if one.first_line <= row <= one.last_line]
    return found[0] if found else None


def _replace(text: _Repaired, row: int, is_dropped: bool) -> bool:
    """Has a statement give way to one that keeps the loops and IFs, or to a comment."""
    statement = _statement_at(text, row)
    if statement is None or is_comment(text.rows[row - 1].text):
        text.rows[row - 1] = _Row("C", text.rows[row - 1].line)
        return True
    line = text.rows[statement.first_line - 1].line
    new = None if is_dropped else _stand_in(text, statement)
    if new is None:
        _note(text, statement, line)
    for place in range(statement.first_line, statement.last_line + 1):
        text.rows[place - 1] = _Row("C", text.rows[place - 1].line)
    if is_dropped:
        # Directives before it stand before no DO now.
        for directive in statement.directives:
            text.rows[directive.line - 1] = _Row("C", text.rows[directive.line - 1].line)
    if new is not None:
        label = str(statement.label) if statement.label is not None else ""
        text.rows[statement.first_line - 1] = _Row(f"{label:>5} {new}", line)
    return True


def _stand_in(text: _Repaired, statement: WrittenStatement) -> Optional[str]:
    """What stands in the place of a statement and keeps the loops and IFs; none where nothing can."""
    letters = statement.text.letters
    header = _HEADER.match(letters)
    if letters.startswith("IF(") and letters.endswith("THEN"):
        return "IF (0.EQ.0) THEN"
    if letters.startswith("ELSEIF(") and letters.endswith("THEN"):
        return "ELSE IF (0.EQ.0) THEN"
    if header is not None and "," in letters[header.end():]:
        return f"{'PARALLEL ' if header.group(1) else ''}DO {header.group(2)} {_fresh(text)} = 1, 1"
    is_assigned = isinstance(read_form(statement.text), (Assignment, Do)) or _ASSIGNED.match(letters)
    if is_assigned or letters.startswith(_DOING):
        return "CONTINUE"
    return "CONTINUE" if statement.label is not None and not letters.startswith((*_DECLARING, *_STRUCTURAL)) else None


def _note(text: _Repaired, statement: WrittenStatement, line: int) -> None:
    """Notes of what kind a statement is that goes; one of no known form may be of any."""
    letters = statement.text.letters
    word = next((one for one in _DECLARING if letters.startswith(one)), None)
    if word is not None:
        text.declarations[line] = set() if word == "IMPLICIT" else set(_WORD.findall(letters[len(word):]))
        return
    if letters.startswith("PRIVATE"):
        return
    text.structure.add(line)
    if not letters.startswith(_STRUCTURAL):
        text.declarations[line] = set()


def _fresh(text: _Repaired) -> str:
    """A name that doesn't occur."""
    everything = "".join(text.lines).replace(" ", "").upper()
    return next(name for name in (f"KX{number}" for number in range(1, 10**6)) if name not in everything)


def _declare(text: _Repaired, row: int, name: str) -> None:
    """Declares a name at the front of its unit."""
    statements = read_statements(text.lines)
    first = max((one.last_line for one in statements if one.text.letters == "END" and one.last_line < row), default=0)
    place = next(
        one.first_line for one in statements
        if one.first_line > first and not one.text.letters.startswith(("PROGRAM", "SUBROUTINE", "IMPLICIT"))
    )
    text.rows.insert(place - 1, _Row(f"      INTEGER {name}", text.rows[row - 1].line, True))
    text.declared.add(name)


def _close(text: _Repaired, row: int) -> bool:
    """Ends what is open at the END or the ELSE of a row; where END is missing, writes one."""
    statement = _statement_at(text, row)
    line = text.rows[row - 1].line if 1 <= row <= len(text.rows) else 0
    text.structure.add(line)
    if statement is None or not statement.text.letters.startswith(("END", "ELSE")):
        text.rows.append(_Row("      END", line, True))
        return True
    closing = list(_closing(text, statement))
    text.rows[statement.first_line - 1:statement.first_line - 1] = [_Row(one, line, True) for one in closing]
    return bool(closing)


def _closing(text: _Repaired, statement: WrittenStatement) -> Iterator[str]:
    """What ends the loops and the IFs that are open before a statement; before an ELSE, those in its IF."""
    is_end = statement.text.letters == "END"
    for block in reversed(_open_blocks(text, statement)):
        if block == "IF":
            if not is_end:
                return
            yield "      END IF"
        else:
            yield f"{block:>5} CONTINUE" if block else "      END DO"


def _open_blocks(text: _Repaired, end: WrittenStatement) -> List[str]:
    """What is open before a statement, the outermost first: `IF`, or the label of a DO, which may be empty."""
    blocks: List[str] = []
    for statement in read_statements(text.lines[:end.first_line - 1]):
        letters = statement.text.letters
        header = _HEADER.match(letters)
        label = str(statement.label) if statement.label is not None else None
        if letters == "END":
            blocks = []
        elif letters.startswith("IF(") and letters.endswith("THEN"):
            blocks.append("IF")
        elif letters == "ENDIF" and "IF" in blocks:
            while blocks.pop() != "IF":
                pass
        elif letters == "ENDDO" and label not in blocks and blocks[-1:] == [""]:
            blocks.pop()
        elif header is not None and isinstance(read_form(statement.text), Do):
            blocks.append(header.group(2).lstrip("0"))
            continue
        if label is not None and label in blocks:
            del blocks[blocks.index(label):]
    return blocks

