"""What the editor asks: a line of text, or a key out of some."""

from __future__ import annotations

from typing import Callable, List, Optional, Sequence

from ..output import visible
from .pictures import Row, Style
from .terminal import BACKSPACE, DOWN, ENTER, ESCAPE, INTERRUPTED, TAB, UP, Terminal

#: Draws the screen without its last row.
Background = Callable[[], List[Row]]


def ask(terminal: Terminal, background: Background, words: str, choices: Sequence[str] = ()) -> Optional[str]:
    """Asks for a line; none where the user drops the question. The first choice is offered, Tab offers the next."""
    text = choices[0] if choices else ""
    place = 0
    is_fresh = True
    while True:
        row = f"{visible(words)} {text}"
        # Of a row that is too long the end is shown, where the user types.
        row = row[max(0, len(row) - terminal.size[1] + 1):]
        terminal.draw([*background(), Row(row, Style.LOOP)], len(row))
        key = terminal.key()
        if key == ENTER:
            return text.strip()
        if key in (ESCAPE, INTERRUPTED):
            return None
        if key in (TAB, UP, DOWN) and choices:
            place = (place + (-1 if key == UP else 1)) % len(choices)
            text, is_fresh = choices[place], True
        elif key == BACKSPACE:
            text, is_fresh = text[:-1], False
        elif len(key) == 1 and key.isprintable():
            # What is typed first takes the place of what was offered.
            text, is_fresh = (key if is_fresh else text + key), False


def pick(terminal: Terminal, background: Background, words: str, keys: str) -> Optional[str]:
    """Asks for one of some keys; none where the user thinks better of it."""
    row = visible(words)
    while True:
        row = row[max(0, len(row) - terminal.size[1] + 2):]
        terminal.draw([*background(), Row(row, Style.LOOP)], len(row) + 1)
        key = terminal.key()
        if key in (ESCAPE, INTERRUPTED):
            return None
        if len(key) == 1 and key in keys:
            return key
