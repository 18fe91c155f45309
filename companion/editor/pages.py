"""Pages of text over the whole screen: answers that are longer than a line, and lists to choose from."""

from __future__ import annotations

import re
from typing import List, NamedTuple, Optional, Sequence, Tuple

from ..output import visible
from .pictures import Row, Style, first_shown, folded
from .terminal import (
    DOWN, END, ENTER, ESCAPE, HOME, OTHER, PAGE_DOWN, PAGE_UP, PRESSED, RESIZED, UP, WHEEL_DOWN, WHEEL_UP, Terminal,
)

#: What stands before the words of a line: blanks, and perhaps a key or a dash.
_FRONT = re.compile(r" *(?:[0-9a-z-]  )?")
_HINT = "arrows and page keys scroll; another key closes the page, and is carried out"
#: The keys that choose from a list; `q` closes the page.
KEYS = "123456789abcdefghijklmnop"


class Listed(NamedTuple):
    """A list: its lines, and what can be chosen from it, each with the place of its line, counted from 0."""

    lines: List[str]
    chosen: List[str]
    places: List[int]
    #: How lines are shown; plain where there is none.
    styles: Sequence[Style] = ()
    #: The place among the choices of the one that is looked at first.
    first: int = 0
    #: The keys that choose, in the order of the choices.
    keys: str = KEYS


class Answer(NamedTuple):
    """The key that has closed a page, and which of the choices it's about, counted from 0."""

    key: str
    choice: Optional[int] = None


def show_page(terminal: Terminal, title: str, lines: Sequence[str], hint: str = _HINT) -> str:
    """Shows a text until a key is pressed that doesn't scroll it, and answers that key."""
    return show_list(terminal, title, Listed(list(lines), [], []), hint).key


def show_list(terminal: Terminal, title: str, listed: Listed, hint: str) -> Answer:
    """Shows a list until a key is pressed that doesn't move in it.

    Enter and a click choose what they are on, and a key of the list the line that it stands before.
    """
    page = _Page(listed)
    while True:
        terminal.draw(page.picture(title, *terminal.size, hint))
        key = terminal.key()
        if key == PRESSED:
            key = page.press(terminal.pressed)
        place = listed.keys.find(key) if len(key) == 1 else -1
        if 0 <= place < len(listed.chosen):
            return Answer(ENTER, place)
        if not page.move(key):
            return Answer(key, page.present if listed.chosen else None)


class _Page:
    """A page, and how far it is scrolled. The arrows move in what can be chosen, or else scroll."""

    def __init__(self, listed: Listed) -> None:
        self._listed = listed
        #: Which of the choices is looked at.
        self.present = listed.first
        self._first = 0
        #: For each row of the text the place of its line.
        self._rows: List[Tuple[int, str]] = []
        self._room = 1
        #: Whether the present choice has to be seen.
        self._follows = bool(listed.chosen)

    def picture(self, title: str, height: int, width: int, hint: str) -> List[Row]:
        """The page for a terminal of this size."""
        self._room = max(height - 2, 1)
        self._rows = [
            (place, row) for place, line in enumerate(self._listed.lines)
            for row in _folded(visible(line), max(width, 1))
        ]
        chosen = self._listed.places[self.present] if self._listed.chosen else -1
        bar = [index for index, (place, _) in enumerate(self._rows) if place == chosen]
        wanted = [*bar[:1], *bar[-1:]] if self._follows else []
        self._first = first_shown(self._first, self._room, len(self._rows), wanted)
        last = min(self._first + self._room, len(self._rows))
        scrolled = f"   rows {self._first + 1} to {last} of {len(self._rows)}" if len(self._rows) > self._room else ""
        shown = [
            Row(text.ljust(width), Style.CURSOR) if place == chosen else Row(text, self._style(place))
            for place, text in self._rows[self._first:last]
        ]
        return [
            Row(f" {visible(title)}{scrolled}".ljust(width)[:width], Style.BAR), *shown,
            *[Row("")] * (self._room - len(shown)), Row(hint[:width], Style.LOOP),
        ]

    def _style(self, place: int) -> Style:
        return self._listed.styles[place] if place < len(self._listed.styles) else Style.PLAIN

    def press(self, y: int) -> str:
        """The key that a click at a row of the screen stands for: on the first or the last one it closes the page."""
        if not 1 <= y <= self._room:
            return ESCAPE
        index = self._first + y - 1
        place = self._rows[index][0] if index < len(self._rows) else -1
        if place not in self._listed.places:
            return OTHER
        self.present = self._listed.places.index(place)
        return ENTER

    def move(self, key: str) -> bool:
        """Does what a key says that moves; answers whether it's such a key."""
        first, room = self._first, self._room
        moves = {
            UP: first - 1, DOWN: first + 1, PAGE_UP: first - room, PAGE_DOWN: first + room, " ": first + room,
            HOME: 0, END: len(self._rows), WHEEL_UP: first - 3, WHEEL_DOWN: first + 3, RESIZED: first, OTHER: first,
        }
        if key not in moves:
            return False
        if key in (RESIZED, OTHER):
            return True
        before = self.present
        if self._listed.chosen and key not in (WHEEL_UP, WHEEL_DOWN):
            self.present = self._next(key)
        # Beyond the first and the last choice, the text is scrolled.
        self._follows = self.present != before
        self._first = first if self._follows else moves[key]
        return True

    def _next(self, key: str) -> int:
        """Which of the choices a key leads to."""
        last = len(self._listed.chosen) - 1
        if key in (HOME, END):
            return 0 if key == HOME else last
        if key in (UP, DOWN):
            return max(0, min(self.present + (1 if key == DOWN else -1), last))
        places = [place for place, _ in self._rows]
        wanted = places.index(self._listed.places[self.present]) + (-self._room if key == PAGE_UP else self._room)
        place = places[max(0, min(wanted, len(places) - 1))]
        return min(range(last + 1), key=lambda choice: abs(self._listed.places[choice] - place))


def _folded(line: str, width: int) -> List[str]:
    """A line in rows; further ones stand as far to the right as the words of the first, behind a key if it has one."""
    match = _FRONT.match(line)
    front = match.group() if match is not None else ""
    if len(line) <= width or len(front) + 10 > width:
        return [line] if len(line) <= width else folded(line, width)
    first, *others = folded(line[len(front):].rstrip(" "), width - len(front))
    return [front + first, *(" " * len(front) + row for row in others)]
