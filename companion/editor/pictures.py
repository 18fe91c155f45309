"""What the terminal shows: rows of text with styles, made for any height and width. Nothing here knows the terminal."""

from __future__ import annotations

from enum import Enum
from typing import List, NamedTuple, Optional, Sequence, Tuple

from ..messages import counted
from ..output import visible
from ..panes import Dependence, SourceRow
from ..trials import carried_names
from .desk import Desk
from .filters import Filters

#: Fewer rows or columns show nothing that is of use.
LEAST_HEIGHT = 10
LEAST_WIDTH = 30

_MESSAGE_ROWS = 2
HINT = "? keys  n next  a advice  e edit  u undo  R run  w save  O OpenMP  q quit"


class Style(Enum):
    """How a piece of a row is shown."""

    PLAIN = "plain"
    BAR = "bar"
    LOOP = "loop"
    CURSOR = "cursor"
    #: A loop that carries something, one that is free, and one that is parallel.
    CARRIES = "carries"
    FREE = "free"
    PARALLEL = "parallel"
    #: Rows by their marks.
    PROVEN = "proven"
    PENDING = "pending"
    REJECTED = "rejected"


class Row(NamedTuple):
    """A row of the screen, and parts of it that are underlined: their first column, and the first one behind."""

    text: str
    style: Style = Style.PLAIN
    marked: Tuple[Tuple[int, int], ...] = ()


class On(NamedTuple):
    """What stands at a place of the screen: a line of the source, counted from 1, or a row, counted from 0."""

    line: Optional[int] = None
    row: Optional[int] = None


def folded(text: str, width: int) -> List[str]:
    """A text in rows of a width, cut between words where it has some."""
    rows = []
    rest = text
    while len(rest) > width:
        cut = rest.rfind(" ", 1, width + 1)
        cut = cut if cut > 0 else width
        rows.append(rest[:cut])
        rest = rest[cut:].lstrip(" ")
    return [*rows, rest]


def first_shown(first: int, height: int, count: int, wanted: Sequence[int]) -> int:
    """The first of some rows to be shown, so that the wanted ones are seen as far as they can be, the first surely.

    What is shown moves as little as can be.
    """
    for index in reversed(wanted):
        first = min(max(first, index - height + 1), index)
    return max(0, min(first, count - height))


class Painter:
    """Makes pictures of a desk, and remembers how far each pane is scrolled."""

    def __init__(self, name: str) -> None:
        self._name = visible(name)
        self._first_line = 0
        self._first_row = 0
        #: How many rows of the screen the source has, and the dependences.
        self._heights = (0, 0)

    def picture(self, desk: Desk, state: str, height: int, width: int, hint: str = HINT) -> List[Row]:
        """The whole screen. The state says how many changes there are, and whether they are saved."""
        if height < LEAST_HEIGHT or width < LEAST_WIDTH:
            return [Row("the window is too small"[:width])]
        rest = height - 3 - _MESSAGE_ROWS
        below = max(2, rest * 3 // 8)
        self._heights = (rest - below, below)
        return [
            Row(_title(f" {self._name}: {state}", "pedx edit ", width), Style.BAR),
            *self._source(desk, rest - below, width),
            Row(_bar(desk, width), Style.BAR),
            *self._rows(desk, below, width),
            *_message(desk, width),
            Row(visible(hint)[:width], Style.PLAIN if hint is HINT else Style.LOOP),
        ]

    def at(self, desk: Desk, y: int) -> On:
        """What stands at a row of the screen, counted from 0."""
        above, below = self._heights
        line, row = y - 1 + self._first_line, y - 2 - above + self._first_row
        if 1 <= y <= above and line < len(desk.present.panes.source):
            return On(line=line + 1)
        if above + 2 <= y < above + 2 + below and row < len(desk.rows):
            return On(row=row)
        return On()

    def _source(self, desk: Desk, height: int, width: int) -> List[Row]:
        source = desk.present.panes.source
        self._first_line = first_shown(self._first_line, height, len(source), _wanted_lines(desk))
        shown = source[self._first_line:self._first_line + height]
        marks = {**desk.named, **desk.ends_of_row()}
        marked = desk.marked()
        rows = [
            _source_row(desk, row, marks.get(row.statement or 0, " "), width, marked.get(row.line, [])) for row in shown
        ]
        return rows + [Row("")] * (height - len(rows))

    def _rows(self, desk: Desk, height: int, width: int) -> List[Row]:
        rows = desk.rows
        self._first_row = first_shown(self._first_row, height, len(rows), [desk.row])
        shown = rows[self._first_row:self._first_row + height]
        pictures = [
            Row(text[:width], Style.CURSOR if desk.in_rows and index == desk.row else Style(row.mark))
            for index, (text, row) in enumerate(zip(_table(shown), shown), self._first_row)
        ]
        if not rows:
            pictures = [Row(f"   {_about_none(desk)}"[:width])]
        return pictures + [Row("")] * (height - len(pictures))


def _title(left: str, right: str, width: int) -> str:
    """A bar with a text at each side; the right one is left out where there is no room."""
    room = width - len(left) - len(right)
    return f"{left}{' ' * room}{right}" if room > 0 else left[:width].ljust(width)


def _bar(desk: Desk, width: int) -> str:
    """What the loop carries, and which rows are shown; filters are told even where little room is left for the loop."""
    left, right = f" {_about_loop(desk)}", f" {_about_rows(desk)} "
    if desk.filters != Filters() and len(left) + len(right) > width:
        left = left[:max(0, width - len(right) - 2)] + ".."
        right = right[:width - 2]
    return _title(left, right[1:], width)


def _about_loop(desk: Desk) -> str:
    loop = desk.loop
    if loop is None:
        return "outside all loops"
    free = "free, " if desk.is_free else ""
    return f"loop {loop.number}, {visible(loop.header)}: {free}{desk.verdict}"


def _about_rows(desk: Desk) -> str:
    shown, count = len(desk.rows), desk.count
    are_all = desk.filters == Filters() or shown == count
    return f"{'' if are_all else f'{shown} of '}{counted(shown if are_all else count, 'row')}, {desk.filters.words}"


def _about_none(desk: Desk) -> str:
    """What is said where no row is shown."""
    if desk.filters == Filters() and desk.loop is not None:
        return "the loop carries no dependence; L shows those within it"
    return "no dependence with these filters; 0 takes them away"


def _wanted_lines(desk: Desk) -> List[int]:
    """The lines that are to be seen, counted from 0, the most wanted one first."""
    if desk.chosen is not None:
        return [desk.outline.lines[place[0]] - 1 for place in (desk.chosen.sink, desk.chosen.source)]
    loop = desk.loop
    lines = [desk.line - 1]
    if desk.named:
        lines.extend(desk.outline.lines[number] - 1 for number in desk.named)
    elif loop is not None and loop.first_line == desk.line:
        lines.append(loop.last_line - 1)
    return lines


def _source_row(desk: Desk, row: SourceRow, mark: str, width: int, marked: Sequence[Tuple[int, int]]) -> Row:
    loop = desk.loop
    inside = loop is not None and loop.first_line <= row.line <= loop.last_line
    bar = (">" if loop is not None and row.line == loop.first_line else "|") if inside else " "
    text = f"{mark}{row.statement or '':>4} {bar}{visible(row.text)}"[:width]
    front = len(text) - len(visible(row.text)[:max(0, width - 7)])
    parts = tuple((first + front, min(last + front, width)) for first, last in marked if first + front < width)
    if row.line == desk.line:
        return Row(text.ljust(width) if not desk.in_rows else text, Style.LOOP if desk.in_rows else Style.CURSOR, parts)
    return Row(text, _style_of(desk, row, bar), parts)


def _style_of(desk: Desk, row: SourceRow, bar: str) -> Style:
    """How a line is shown: the DO of each loop by what it carries."""
    if bar == ">":
        return Style.LOOP
    loop = desk.outline.loops.get(row.statement or 0)
    if loop is None:
        return Style.PLAIN
    if carried_names(desk.present.carried.get(loop.number, [])):
        return Style.CARRIES
    return Style.PARALLEL if loop.parallel else Style.FREE


def _table(rows: Sequence[Dependence]) -> List[str]:
    """Rows of the dependence pane, their parts below one another."""
    parts = [row.row.split(" ") for row in rows]
    widths = [max(map(len, column)) for column in zip(*parts)]
    return ["   " + "  ".join(part.ljust(size) for part, size in zip(row, widths)).rstrip() for row in parts]


def _message(desk: Desk, width: int) -> List[Row]:
    rows = folded(visible(desk.message), width)
    if len(rows) > _MESSAGE_ROWS:
        rows = [*rows[:_MESSAGE_ROWS - 1], rows[_MESSAGE_ROWS - 1][:width - 3] + "..."]
    return [Row(text) for text in (*rows, *[""] * _MESSAGE_ROWS)][:_MESSAGE_ROWS]
