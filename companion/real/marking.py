"""Marks in the text of a file, which count how often a run comes by.

A mark is a call on a line of its own: before a statement, and at the front of each iteration of a DO. A label goes to
the mark before its statement, so that jumps come by. It is a copy of the file that gets marks, never the file itself.

What stands behind a `;`, in a WHERE or a FORALL, or in an INCLUDEd file has no mark of its own. A DO whose body begins
on its own line has no count of iterations.
"""

from __future__ import annotations

import re
from collections import defaultdict
from dataclasses import dataclass, field
from typing import Dict, FrozenSet, List, Optional, Sequence, Tuple

from .costs import Cost, Costs
from .keywords import words_of
from .symbols import Scopes
from .units import Block, File, Node, Unit, Written, depth_of

#: The first words of statements that may have a mark before them.
_COUNTED = frozenset([
    "=", "=>", "IF", "IF THEN", "ARITHMETIC IF", "WHERE", "FORALL", "DO", "SELECT CASE", "SELECT TYPE", "ASSOCIATE",
    "BLOCK", "GO TO", "COMPUTED GO TO", "ASSIGNED GO TO", "ASSIGN", "CYCLE", "RETURN", "STOP", "CALL", "ALLOCATE",
    "DEALLOCATE", "NULLIFY", "READ", "WRITE", "PRINT", "OPEN", "CLOSE", "INQUIRE", "WAIT", "REWIND", "BACKSPACE",
    "FLUSH", "END FILE",
])
#: In blocks of these kinds there are assignments alone, and no call.
_CLOSED = ("WHERE", "FORALL")
#: Deeper nests of blocks aren't counted.
_DEEPEST = 500

_FIXED_LABEL = re.compile(r"[ 0-9]{1,5}(?=\t)|[ 0-9]{5}")
_FREE_LABEL = re.compile(r"\s*[0-9]+(?=\s)")


@dataclass(frozen=True)
class LoopMarks:
    """What counts a loop: the place of its entries, that of its iterations (none where nothing counts them)."""

    context: int
    entries: int
    iterations: Optional[int]


@dataclass
class Marks:
    """All marks of some files. A context is a unit or a loop, to which statements belong; it has a number from 1 on.

    `name` is that of the procedure that is called, which no file has.
    """

    name: str
    places: int = 0
    contexts: int = 0
    #: By the number of the file and the line of a loop.
    loops: Dict[Tuple[int, int], LoopMarks] = field(default_factory=dict)

    def place(self) -> int:
        """A new place."""
        self.places += 1
        return self.places

    def context(self) -> int:
        """A new context."""
        self.contexts += 1
        return self.contexts

    def call(self, place: int, context: int, weight: int) -> str:
        """The call at a place. `weight` is the number of statements that it stands for."""
        return f"CALL {self.name}({place}_4,{context}_4,{weight}_4)"


def marks_for(files: Sequence[File]) -> Marks:
    """Marks with a name that no file has."""
    words: FrozenSet[str] = frozenset().union(*(words_of(line) for file in files for line in file.lines))
    number, name = 1, "PEDX_MARK"
    while any(word in words for word in (name, f"{name}S")):
        number += 1
        name = f"PEDX_MARK{number}"
    return Marks(name)


def marked(file: File, index: int, scopes: Scopes, marks: Marks) -> List[str]:
    """The lines of a file with marks."""
    return _Marker(file, index, scopes, marks).lines()


class _Marker:
    """Puts marks into one file."""

    def __init__(self, file: File, index: int, scopes: Scopes, marks: Marks) -> None:
        self._file = file
        self._index = index
        self._scopes = scopes
        self._marks = marks
        self._before: Dict[int, List[str]] = defaultdict(list)
        self._after: Dict[int, List[str]] = defaultdict(list)
        self._lines = list(file.lines)
        written = [one for unit in file.all_units() for one in unit.statements() if not one.item.file]
        #: How many statements have a part of a line, and the first of them.
        self._sharing: Dict[int, List[Written]] = defaultdict(list)
        for one in sorted(written, key=lambda other: other.number):
            for line in {one.item.first, one.item.last}:
                self._sharing[line].append(one)
        self._ends: FrozenSet[Written] = frozenset()
        self._functions: FrozenSet[Written] = frozenset()

    def lines(self) -> List[str]:
        """The whole text."""
        for unit in self._file.units:
            self._top(unit)
        found: List[str] = []
        for number, line in enumerate(self._lines, 1):
            found += self._before.get(number, ())
            found.append(line)
            found += self._after.get(number, ())
        return found

    # --- Units -------------------------------------------------------------------------------------------------------

    def _top(self, unit: Unit) -> None:
        """A unit that isn't in another one. Its name for the marks is seen by those that it contains."""
        if unit.kind == "BLOCK DATA" or not self._put_use(unit):
            return
        waiting = [unit]
        while waiting:
            one = waiting.pop(0)
            waiting.extend(one.contained)
            if not one.faults and depth_of(one.body, of_all=True) <= _DEEPEST:
                self._unit(one)

    def _put_use(self, unit: Unit) -> bool:
        """Puts a USE behind the head of a unit; false where there is no place for it."""
        text = self._laid_out(f"USE {self._marks.name}S, ONLY: {self._marks.name}")
        head = unit.head
        if head is not None:
            is_alone = not head.item.file and self._is_last(head)
            if is_alone:
                self._after[head.item.last].append(text)
            return is_alone
        first = next(unit.statements(), None)
        if first is None or first.item.file or not self._is_first(first):
            return False
        self._before[first.item.first].append(text)
        return True

    def _unit(self, unit: Unit) -> None:
        symbols = self._scopes.of(unit)
        self._functions = frozenset(written for written, _ in symbols.leading_functions())
        self._ends = frozenset(
            block.end for block in unit.loops() if block.end is not None and block.end.word != "END"
        )
        self._nodes(unit.body, self._marks.context())

    # --- Statements --------------------------------------------------------------------------------------------------

    def _nodes(self, nodes: Sequence[Node], context: int) -> None:
        for node in nodes:
            if isinstance(node, Block):
                self._block(node, context)
            else:
                self._statement(node, context)

    def _statement(self, written: Written, context: int) -> Optional[int]:
        """Puts a mark before a statement, and answers its place; none where there is none."""
        item = written.item
        if item.file or written.word not in _COUNTED or written in self._functions or not self._is_first(written):
            return None
        place = self._marks.place()
        text = self._laid_out(self._marks.call(place, context, 1))
        if item.label is not None and written not in self._ends:
            text = self._with_label(item.first, item.label, text)
        self._before[item.first].append(text)
        return place

    def _block(self, block: Block, context: int) -> None:
        entries = self._statement(block.head, context)
        if block.kind in _CLOSED:
            return
        if block.kind == "DO":
            context = self._loop(block, entries)
        for branch in block.branches:
            self._nodes(branch.body, context)

    def _loop(self, block: Block, entries: Optional[int]) -> int:
        """Puts a mark at the front of each iteration, and answers the loop's context."""
        context = self._marks.context()
        item, iterations = block.head.item, None
        if not item.file and self._is_last(block.head):
            iterations = self._marks.place()
            self._after[item.last].append(self._laid_out(self._marks.call(iterations, context, 0)))
        if entries is not None:
            self._marks.loops[self._index, item.first] = LoopMarks(context, entries, iterations)
        return context

    # --- Lines -------------------------------------------------------------------------------------------------------

    def _is_first(self, written: Written) -> bool:
        """Whether a statement is the first on its line."""
        return self._sharing[written.item.first][0] is written

    def _is_last(self, written: Written) -> bool:
        """Whether a statement is the last on its line."""
        return self._sharing[written.item.last][-1] is written

    def _laid_out(self, text: str) -> str:
        return f"      {text}"

    def _with_label(self, line: int, label: int, text: str) -> str:
        """A mark with the label of its statement, which loses it; without it where the label can't be found."""
        pattern = _FIXED_LABEL if self._file.form == "fixed" else _FREE_LABEL
        before = self._lines[line - 1]
        match = pattern.match(before)
        if match is None or "".join(match.group().split()).lstrip("0") != str(label):
            return text
        self._lines[line - 1] = re.sub("[0-9]", " ", match.group()) + before[match.end():]
        return f"{label:<5} {text.lstrip()}"


# --- What is compiled with them --------------------------------------------------------------------------------------


def module_text(marks: Marks) -> str:
    """The module that the files USE. It says that marks are PURE, since they may be in PURE procedures."""
    name = marks.name
    return f"""\
module {name}s
  interface
    pure subroutine {name}(place, context, weight) bind(c, name="{name.lower()}")
      use, intrinsic :: iso_c_binding, only: c_int
      integer(c_int), value :: place, context, weight
    end subroutine {name}
  end interface
end module {name}s
"""


def counter_text(marks: Marks, variable: str) -> str:
    """The procedure that counts. At the end of the run it writes to the file that a variable of the environment names.

    Each context that is open is on a stack, so a loop's statements are counted with those of the procedures that it
    calls. When a mark of a context that is open comes by, those above it have ended.
    """
    return _COUNTER.format(
        name=marks.name, lower=marks.name.lower(), places=marks.places, contexts=marks.contexts, variable=variable,
    )


_COUNTER = """\
module {name}_counts
  use, intrinsic :: iso_c_binding
  implicit none
  integer(c_int64_t) :: counts({places} + 1) = 0, inside({contexts} + 1) = 0, entered({contexts} + 1) = 0, total = 0
  integer(c_int) :: stack(0:{contexts} + 1) = 0, top = 0
  logical :: is_open(0:{contexts} + 1) = .false., has_begun = .false.
  interface
    integer(c_int) function atexit(action) bind(c)
      import
      type(c_funptr), value :: action
    end function
    type(c_ptr) function fopen(name, mode) bind(c)
      import
      type(c_ptr), value :: name
      character(kind=c_char) :: mode(*)
    end function
    integer(c_size_t) function fwrite(values, size, number, file) bind(c)
      import
      integer(c_int64_t) :: values(*)
      integer(c_size_t), value :: size, number
      type(c_ptr), value :: file
    end function
    integer(c_int) function fclose(file) bind(c)
      import
      type(c_ptr), value :: file
    end function
    type(c_ptr) function getenv(name) bind(c)
      import
      character(kind=c_char) :: name(*)
    end function
  end interface
contains
  subroutine begin()
    integer(c_int) :: status
    has_begun = .true.
    is_open(0) = .true.
    status = atexit(c_funloc(finish))
  end subroutine

  subroutine finish() bind(c, name="{lower}_finish")
    type(c_ptr) :: file, name
    integer(c_size_t) :: done
    integer(c_int) :: status
    integer(c_int64_t) :: all(1)
    do while (top > 0)
      call pop()
    end do
    name = getenv("{variable}" // c_null_char)
    if (.not. c_associated(name)) return
    file = fopen(name, "wb" // c_null_char)
    if (.not. c_associated(file)) return
    all = total
    done = fwrite(all, 8_c_size_t, 1_c_size_t, file)
    done = fwrite(counts, 8_c_size_t, int({places}, c_size_t), file)
    done = fwrite(inside, 8_c_size_t, int({contexts}, c_size_t), file)
    status = fclose(file)
  end subroutine

  subroutine pop()
    inside(stack(top)) = inside(stack(top)) + (total - entered(top))
    is_open(stack(top)) = .false.
    top = top - 1
  end subroutine

  subroutine turn(context)
    integer(c_int), intent(in) :: context
    if (.not. has_begun) call begin()
    if (is_open(context)) then
      do while (stack(top) /= context)
        call pop()
      end do
    else
      top = top + 1
      stack(top) = context
      entered(top) = total
      is_open(context) = .true.
    end if
  end subroutine
end module

subroutine {name}(place, context, weight) bind(c, name="{lower}")
  use {name}_counts
  implicit none
  integer(c_int), value :: place, context, weight
  if (stack(top) /= context) call turn(context)
  counts(place) = counts(place) + 1
  total = total + weight
end subroutine
"""


def costs_by(marks: Marks, values: Sequence[int]) -> Costs:
    """The cost of each loop, by what the counter has written."""
    found: Costs = {}
    total, counts, inside = values[0], values[1:1 + marks.places], values[1 + marks.places:]
    for where, loop in marks.loops.items():
        iterations = -1 if loop.iterations is None else counts[loop.iterations - 1]
        executed = inside[loop.context - 1]
        share = 100.0 * executed / total if total else 0.0
        found[where] = Cost(counts[loop.entries - 1], iterations, executed, share)
    return found
