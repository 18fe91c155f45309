"""The terminal: what is drawn on it, and the keys that are pressed. The only module that uses curses."""

from __future__ import annotations

import curses
import os
import select
import signal
import threading
import time
from contextlib import contextmanager, suppress
from typing import Callable, Dict, Iterator, Optional, Sequence, Tuple, Union

from ..output import printable, terminal_encoding
from ..statuses import CompanionError, Status
from .endings import Ended
from .pictures import Row, Style

#: How long a key that begins with an escape is waited for, in milliseconds.
_ESCAPE_DELAY = "25"
#: Ctrl-Z, which stops the editor until the shell goes on with it.
_SUSPEND = "\x1a"
#: So often in turn a key may not be read before the terminal counts as gone.
_FAILURES = 1000
#: How long a key is waited for at once while other threads run, in seconds: they may get a signal instead of this one.
_TURN = 0.2

#: The names of keys that are no character.
UP, DOWN, PAGE_UP, PAGE_DOWN, HOME, END = "up", "down", "page up", "page down", "home", "end"
ENTER, ESCAPE, TAB, BACKSPACE, RESIZED, INTERRUPTED, OTHER = (
    "Enter", "Esc", "Tab", "backspace", "resized", "interrupted", "other"
)

#: The keys of the mouse: its wheel, and a press, whose place `Terminal.pressed` has.
WHEEL_UP, WHEEL_DOWN, PRESSED = "wheel up", "wheel down", "pressed"
#: Curses calls the wheel buttons 4 and 5; the latter has no name before Python 3.10.
_BUTTON: int = curses.BUTTON1_CLICKED | curses.BUTTON1_PRESSED
_WHEEL_UP: int = curses.BUTTON4_PRESSED
_WHEEL_DOWN: int = getattr(curses, "BUTTON5_PRESSED", 1 << 21)

_CHARACTERS: Dict[str, str] = {
    "\n": ENTER, "\r": ENTER, "\x1b": ESCAPE, "\t": TAB, "\x08": BACKSPACE, "\x7f": BACKSPACE, "\x03": INTERRUPTED,
    "\x04": PAGE_DOWN, "\x02": PAGE_UP,
}
_CODES: Dict[int, str] = {
    curses.KEY_UP: UP, curses.KEY_DOWN: DOWN, curses.KEY_PPAGE: PAGE_UP, curses.KEY_NPAGE: PAGE_DOWN,
    curses.KEY_HOME: HOME, curses.KEY_END: END, curses.KEY_ENTER: ENTER, curses.KEY_BACKSPACE: BACKSPACE,
    curses.KEY_BTAB: TAB, curses.KEY_RESIZE: RESIZED,
}
_STYLES: Dict[Style, int] = {
    Style.PLAIN: curses.A_NORMAL, Style.BAR: curses.A_REVERSE, Style.LOOP: curses.A_BOLD,
    Style.CURSOR: curses.A_REVERSE,
}
#: The styles that are colours, where the terminal has some; else they are plain.
_COLOURS: Dict[Style, int] = {
    Style.CARRIES: curses.COLOR_RED, Style.FREE: curses.COLOR_GREEN, Style.PARALLEL: curses.COLOR_CYAN,
    Style.PROVEN: curses.COLOR_RED, Style.PENDING: curses.COLOR_YELLOW, Style.REJECTED: curses.COLOR_BLUE,
}


def _colours() -> Dict[Style, int]:
    """The colours over the terminal's own background; none where it has none, or NO_COLOR is set."""
    if "NO_COLOR" in os.environ:
        return {}
    with suppress(curses.error):
        curses.start_color()
        if curses.has_colors():
            curses.use_default_colors()
            for number, colour in enumerate(_COLOURS.values(), 1):
                curses.init_pair(number, colour, -1)
            return {style: curses.color_pair(number) for number, style in enumerate(_COLOURS, 1)}
    return {}


class Terminal:
    """A terminal that shows pictures."""

    def __init__(self, window: "curses.window") -> None:
        self._window = window
        self._encoding = terminal_encoding()
        self._failures = 0
        self._styles = {**dict.fromkeys(_COLOURS, curses.A_NORMAL), **_STYLES, **_colours()}
        #: Where the mouse was pressed last: the row of the screen, counted from 0.
        self.pressed = 0
        curses.mousemask(_BUTTON | _WHEEL_UP | _WHEEL_DOWN)
        curses.mouseinterval(0)
        # Ctrl-C is a key like others.
        curses.raw()
        self._show_cursor(False)

    @property
    def size(self) -> Tuple[int, int]:
        """The number of rows, and of columns."""
        return self._window.getmaxyx()

    def draw(self, rows: Sequence[Row], cursor: int = -1) -> None:
        """Shows a picture; with a cursor, at this column of its last row."""
        height, width = self.size
        self._window.erase()
        for index, row in enumerate(rows[:height]):
            # The last column of the last row can't be written without an error, which means nothing.
            with suppress(curses.error):
                self._window.addnstr(index, 0, printable(row.text, self._encoding), width, self._styles[row.style])
            for first, last in row.marked:
                part = printable(row.text, self._encoding)[first:last]
                with suppress(curses.error):
                    self._window.addstr(index, first, part, self._styles[row.style] | curses.A_UNDERLINE | curses.A_BOLD)
        self._show_cursor(cursor >= 0)
        if cursor >= 0:
            self._window.move(min(len(rows), height) - 1, min(cursor, width - 1))
        self._window.refresh()

    def key(self) -> str:
        """Waits for a key: a character, or the name of another key."""
        while True:
            key = self.key_within(_TURN if threading.active_count() > 1 else None)
            if key is not None:
                return key

    def key_within(self, seconds: Optional[float]) -> Optional[str]:
        """Waits for a key some time; none where none comes. Without a time it waits for ever."""
        self._window.timeout(-1 if seconds is None else int(1000 * seconds))
        begin = time.monotonic()
        try:
            key = self._window.get_wch()
        except curses.error:
            if _is_gone():
                raise Ended(signal.SIGHUP) from None
            if seconds is not None and time.monotonic() - begin > seconds / 2:
                return None
            # The wait was cut off by a signal, that of a resize perhaps, or the terminal has gone away.
            self._failures += 1
            if self._failures > _FAILURES:
                raise Ended(signal.SIGHUP) from None
            return RESIZED
        self._failures = 0
        return self._named(key)

    def _named(self, key: Union[int, str]) -> str:
        """The name of a key that curses has read."""
        if key == _SUSPEND:
            with self.set_aside():
                os.kill(os.getpid(), signal.SIGTSTP)
            return RESIZED
        if isinstance(key, int):
            name = _CODES.get(key, OTHER)
            if name == RESIZED:
                curses.update_lines_cols()
            return self._mouse() if key == curses.KEY_MOUSE else name
        return _CHARACTERS.get(key, key)

    def _mouse(self) -> str:
        """What the mouse does: it presses, or its wheel turns."""
        try:
            _, _, self.pressed, _, buttons = curses.getmouse()
        except curses.error:
            return OTHER
        if buttons & _WHEEL_UP:
            return WHEEL_UP
        if buttons & _WHEEL_DOWN:
            return WHEEL_DOWN
        return PRESSED if buttons & _BUTTON else OTHER

    @contextmanager
    def set_aside(self) -> Iterator[None]:
        """Gives the terminal to another program for a while."""
        curses.def_prog_mode()
        curses.endwin()
        try:
            yield
        finally:
            with suppress(curses.error):
                curses.reset_prog_mode()
                self._window.clear()
                self._window.refresh()

    @staticmethod
    def _show_cursor(is_shown: bool) -> None:
        # Some terminals always show it.
        with suppress(curses.error):
            curses.curs_set(1 if is_shown else 0)


def _is_gone() -> bool:
    """Whether nothing is at the other end of the terminal any longer."""
    terminal = select.poll()
    terminal.register(0, 0)
    return any(event & (select.POLLHUP | select.POLLERR) for _, event in terminal.poll(0))


def on_terminal(use: Callable[[Terminal], None]) -> None:
    """Has the terminal used, and puts it back as it was, whatever happens."""
    os.environ.setdefault("ESCDELAY", _ESCAPE_DELAY)
    if not (os.isatty(0) and os.isatty(1)):
        raise CompanionError(Status.BAD_WORDS, "edit wants a terminal as its input and output")
    try:
        window = curses.initscr()
        try:
            curses.noecho()
            window.keypad(True)
            use(Terminal(window))
        finally:
            _put_back(window)
    except curses.error as error:
        raise CompanionError(Status.NOT_WRITTEN, f"the terminal can't be used: {error}") from error


def _put_back(window: "curses.window") -> None:
    """Puts the terminal back as it was, as far as it's still there."""
    with suppress(curses.error):
        window.keypad(False)
    acts: Sequence[Callable[[], object]] = (curses.echo, curses.noraw, curses.nocbreak, curses.endwin)
    for act in acts:
        with suppress(curses.error):
            act()
