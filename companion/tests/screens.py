"""A terminal for the tests: pedx runs in a pseudo-terminal, and what it writes is kept as rows of characters.

The terminal is a VT100, or an xterm with colours and a mouse, as far as the library curses uses one. A sequence that it
doesn't know is an error.
"""

from __future__ import annotations

import fcntl
import os
import pty
import re
import select
import signal
import struct
import sys
import termios
import time
from typing import Callable, Dict, FrozenSet, List, NamedTuple, Optional, Sequence, Tuple

from .support import TOP, ped_path

#: How long an answer is waited for, in seconds: machines may be busy.
_PATIENCE = 120.0
#: How long nothing may come before the screen counts as drawn.
_QUIET = 0.05

#: The terminals that the tests are: one without colours and a mouse, and one with both.
PLAIN, COLOURED = "vt100", "xterm-256color"

_SEQUENCE = re.compile(r"\x1b(?:\[[?>]?([\d;]*)([A-Za-z@])|[()][0AB]|([=>78DM])|\][\d;]*\x07)")

UP, DOWN, ESCAPE, ENTER, TAB, BACKSPACE = "\x1bOA", "\x1bOB", "\x1b", "\r", "\t", "\x7f"
INTERRUPT = "\x03"
NAMED_KEYS = {"Up": UP, "Down": DOWN, "Esc": ESCAPE, "Enter": ENTER, "Tab": TAB}
#: What the editor always shows in its last row.
HINT = "? keys"


def has_terminal(name: str = PLAIN) -> bool:
    """Whether the library curses is there, and knows a terminal."""
    try:
        import curses
    except ImportError:
        return False
    with open(os.devnull, "wb") as nowhere:
        try:
            curses.setupterm(name, nowhere.fileno())
        except curses.error:
            return False
    return True


class Pen(NamedTuple):
    """How characters are written: their colour and that behind them, where they have some, and their attributes."""

    colour: Optional[int] = None
    behind: Optional[int] = None
    attributes: FrozenSet[str] = frozenset()


_ATTRIBUTES = {1: "bold", 4: "underlined", 7: "reversed"}
_NO_ATTRIBUTES = {22: "bold", 24: "underlined", 27: "reversed"}


class Screen:
    """What a terminal shows."""

    def __init__(self, height: int, width: int) -> None:
        self._rest = ""
        self.resize(height, width)

    def resize(self, height: int, width: int) -> None:
        """Gives the terminal another size, and clears it."""
        self.height, self.width = height, width
        self._cells = [[" "] * width for _ in range(height)]
        self._pens = [[Pen()] * width for _ in range(height)]
        self._pen = Pen()
        self._last = " "
        self._row = self._column = 0
        self._top, self._bottom = 0, height - 1

    @property
    def rows(self) -> List[str]:
        """The rows, without blanks at their ends."""
        return ["".join(cells).rstrip() for cells in self._cells]

    def pens(self, row: int, text: str) -> List[Pen]:
        """How a text in a row is written, each of its characters."""
        first = self.rows[row].index(text)
        return self._pens[row][first:first + len(text)]

    def all_pens(self) -> List[List[Pen]]:
        """How all characters are written, row by row."""
        return self._pens

    def feed(self, text: str) -> None:
        """Takes what a program has written."""
        text = self._rest + text
        place = 0
        while place < len(text):
            if text[place] != "\x1b":
                self._put(text[place])
                place += 1
                continue
            match = _SEQUENCE.match(text, place)
            if match is None:
                if len(text) - place > 20:
                    raise AssertionError(f"no sequence of a VT100: {text[place:place + 20]!r}")
                break
            if match.group(2):
                self._control(match.group(1), match.group(2))
            elif match.group(3) == "D":
                self._line_feed()
            elif match.group(3) == "M":
                self._line_back()
            place = match.end()
        self._rest = text[place:]

    def _put(self, letter: str) -> None:
        if letter == "\r":
            self._column = 0
        elif letter == "\n":
            self._line_feed()
        elif letter == "\b":
            self._column = max(0, self._column - 1)
        elif letter >= " ":
            if self._column == self.width:
                self._column = 0
                self._line_feed()
            self._cells[self._row][self._column] = letter
            self._pens[self._row][self._column] = self._pen
            self._column += 1
            self._last = letter

    def _line_feed(self) -> None:
        if self._row == self._bottom:
            self._scroll(self._top, self._bottom)
        else:
            self._row = min(self._row + 1, self.height - 1)

    def _line_back(self) -> None:
        if self._row == self._top:
            self._scroll(self._bottom, self._top)
        else:
            self._row = max(self._row - 1, 0)

    def _scroll(self, take: int, put: int) -> None:
        """Takes a row away, and puts a blank one in."""
        del self._cells[take], self._pens[take]
        self._cells.insert(put, [" "] * self.width)
        self._pens.insert(put, [Pen()] * self.width)

    def _control(self, numbers: str, letter: str) -> None:
        values = [int(number) if number else 0 for number in numbers.split(";")]
        count = max(values[0], 1)
        moves: Dict[str, Callable[[], Tuple[int, int]]] = {
            "H": lambda: (count - 1, max(values[1] if len(values) > 1 else 1, 1) - 1),
            "A": lambda: (self._row - count, self._column), "B": lambda: (self._row + count, self._column),
            "C": lambda: (self._row, self._column + count), "D": lambda: (self._row, self._column - count),
            "G": lambda: (self._row, count - 1), "d": lambda: (count - 1, self._column),
        }
        if letter in moves:
            row, column = moves[letter]()
            self._row = max(0, min(row, self.height - 1))
            self._column = max(0, min(column, self.width - 1))
        elif letter == "K":
            self._erase_in_row(values[0])
        elif letter == "J":
            self._erase(values[0])
        elif letter == "r":
            self._top = count - 1
            self._bottom = (values[1] if len(values) > 1 and values[1] else self.height) - 1
            self._row = self._column = 0
        elif letter == "m":
            self._take_pen(values)
        elif letter in "X@Pb":
            self._change_row(letter, count)
        elif letter in "LMST":
            self._move_rows(letter, count)
        elif letter not in "hlt":
            raise AssertionError(f"no sequence of a terminal: {numbers}{letter}")

    def _take_pen(self, values: Sequence[int]) -> None:
        """Takes another pen; the colours are the first eight, or the terminal's own one."""
        for value in values:
            colour, behind, attributes = self._pen
            if value in _ATTRIBUTES:
                attributes |= {_ATTRIBUTES[value]}
            elif value in _NO_ATTRIBUTES:
                attributes -= {_NO_ATTRIBUTES[value]}
            elif 30 <= value <= 39:
                colour = value - 30 if value < 38 else None
            elif 40 <= value <= 49:
                behind = value - 40 if value < 48 else None
            elif value != 0:
                raise AssertionError(f"no way to write: {value}")
            self._pen = Pen(colour, behind, attributes) if value else Pen()

    def _change_row(self, letter: str, count: int) -> None:
        """Erases, inserts, deletes or repeats characters at the cursor."""
        cells, pens = self._cells[self._row], self._pens[self._row]
        place = self._column
        if letter == "b":
            for _ in range(count):
                self._put(self._last)
            return
        end = min(place + count, self.width)
        if letter == "X":
            cells[place:end], pens[place:end] = [" "] * (end - place), [Pen()] * (end - place)
        elif letter == "@":
            cells[place:place], pens[place:place] = [" "] * count, [Pen()] * count
        else:
            del cells[place:end], pens[place:end]
        cells.extend([" "] * (self.width - len(cells)))
        pens.extend([Pen()] * (self.width - len(pens)))
        del cells[self.width:], pens[self.width:]

    def _move_rows(self, letter: str, count: int) -> None:
        """Inserts or deletes rows, at the cursor or at the top of what is scrolled."""
        first = self._row if letter in "LM" else self._top
        for _ in range(min(count, self._bottom - first + 1)):
            if letter in "LT":
                self._scroll(self._bottom, first)
            else:
                self._scroll(first, self._bottom)

    def _erase_in_row(self, part: int) -> None:
        first = self._column if part == 0 else 0
        last = self._column + 1 if part == 1 else self.width
        count = min(last, self.width) - first
        self._cells[self._row][first:last] = [" "] * count
        self._pens[self._row][first:last] = [Pen()] * count

    def _erase(self, part: int) -> None:
        self._erase_in_row(part)
        rows = {0: range(self._row + 1, self.height), 1: range(self._row), 2: range(self.height)}[part]
        for row in rows:
            self._cells[row] = [" "] * self.width
            self._pens[row] = [Pen()] * self.width


class Player:
    """Plays a user of pedx at a terminal."""

    def __init__(
        self, words: Sequence[str], folder: str, height: int = 24, width: int = 80,
        environment: Optional[Dict[str, str]] = None,
    ) -> None:
        self.screen = Screen(height, width)
        self.status: Optional[int] = None
        self._process, self._terminal = pty.fork()
        if self._process == 0:
            self._start(words, folder, environment or {})
        self._set_size(height, width)

    @staticmethod
    def _start(words: Sequence[str], folder: str, environment: Dict[str, str]) -> None:
        """Becomes the program pedx. The size of its terminal isn't known yet, so it waits for its first line."""
        try:
            os.chdir(folder)
            variables = {key: value for key, value in os.environ.items() if key not in ("LINES", "COLUMNS", "VISUAL")}
            variables.update({"TERM": PLAIN, "PEDX_PED": os.path.abspath(ped_path()), "LC_ALL": "C.UTF-8"})
            variables.update(environment)
            sys.stdin.readline()
            # A shell has programs in the background ignore Ctrl-C, and what they start, too.
            signal.signal(signal.SIGINT, signal.SIG_DFL)
            os.execve(sys.executable, [sys.executable, str(TOP / "pedx"), *words], variables)
        finally:
            os._exit(127)

    def _set_size(self, height: int, width: int) -> None:
        fcntl.ioctl(self._terminal, termios.TIOCSWINSZ, struct.pack("HHHH", height, width, 0, 0))
        os.write(self._terminal, b"\n")

    def resize(self, height: int, width: int) -> None:
        """Gives the window another size."""
        self.screen.resize(height, width)
        fcntl.ioctl(self._terminal, termios.TIOCSWINSZ, struct.pack("HHHH", height, width, 0, 0))

    def press(self, *keys: str) -> None:
        """Presses keys, one after the other."""
        for key in keys:
            os.write(self._terminal, key.encode())

    def row_of(self, text: str) -> int:
        """The row that has a text."""
        return next(place for place, row in enumerate(self.screen.rows) if text in row)

    def click(self, text: str) -> None:
        """Clicks on the first row that has a text: the button goes down, and up again."""
        place = f"{self.screen.rows[self.row_of(text)].index(text) + 1};{self.row_of(text) + 1}"
        self.press(f"\x1b[<0;{place}M\x1b[<0;{place}m")

    def turn_wheel(self, down: bool) -> None:
        """Turns the wheel of the mouse by one notch."""
        self.press(f"\x1b[<{65 if down else 64};5;5M")

    def wait(self, text: str) -> List[str]:
        """Waits until a text is on the screen, and the screen is drawn; answers its rows."""
        self._until(lambda: text in "\n".join(self.screen.rows), text)
        return self.screen.rows

    def wait_for_change(self, before: Sequence[str]) -> List[str]:
        """Waits until the screen is another one; answers its rows."""
        self._until(lambda: self.screen.rows != before, "another screen")
        return self.screen.rows

    def wait_for_end(self) -> int:
        """Waits until pedx has ended, and answers its status."""
        self._until(lambda: self.status is not None, "the end")
        assert self.status is not None
        return self.status

    def signal(self, number: int) -> None:
        """Sends a signal."""
        os.kill(self._process, number)

    def has_plain_modes(self) -> bool:
        """Whether the terminal is as a shell wants it: with whole lines, an echo, and keys that send signals."""
        modes = termios.tcgetattr(self._terminal)[3]
        return all(modes & mode for mode in (termios.ICANON, termios.ECHO, termios.ISIG))

    def hang_up(self) -> int:
        """Takes the terminal away, waits for the end of pedx, and answers its status."""
        os.close(self._terminal)
        self._terminal = os.open(os.devnull, os.O_RDWR)
        begin = time.monotonic()
        while self.status is None:
            if time.monotonic() - begin > _PATIENCE:
                raise AssertionError("pedx didn't end")
            time.sleep(0.01)
            self._look_for_end()
        return self.status

    def close(self) -> None:
        """Ends what is still running."""
        if self.status is None:
            os.kill(self._process, signal.SIGKILL)
            os.waitpid(self._process, 0)
        os.close(self._terminal)

    def _until(self, is_reached: Callable[[], bool], what: str) -> None:
        begin = time.monotonic()
        while self._read(_QUIET) or not is_reached():
            if self.status is not None and not is_reached() or time.monotonic() - begin > _PATIENCE:
                shown = "\n".join(self.screen.rows)
                raise AssertionError(f"{what!r} didn't come (status {self.status}):\n{shown}")

    def _read(self, seconds: float) -> bool:
        """Takes what is written within some time; answers whether something came."""
        ready, _, _ = select.select([self._terminal], [], [], seconds)
        if not ready and self.status is None:
            # Another program may still have the terminal.
            self._look_for_end()
        if not ready or self.status is not None:
            return False
        try:
            written = os.read(self._terminal, 65536)
        except OSError:
            written = b""
        if not written:
            self._end()
        self.screen.feed(written.decode("utf-8", "replace"))
        return bool(written)

    def _end(self) -> None:
        if self.status is None:
            self._take_status(os.waitpid(self._process, 0)[1])

    def _look_for_end(self) -> None:
        process, status = os.waitpid(self._process, os.WNOHANG)
        if process:
            self._take_status(status)

    def _take_status(self, status: int) -> None:
        self.status = os.WEXITSTATUS(status) if os.WIFEXITED(status) else 128 + os.WTERMSIG(status)
