"""Free edits: the program in the editor that the user likes best."""

from __future__ import annotations

import os
import re
import shlex
import shutil
import subprocess
import tempfile
from pathlib import Path
from typing import List, Optional, Sequence

from .. import files
from ..lines import split_lines
from ..ped import ENCODING, cause
from ..refusals import REFUSALS
from .endings import Ended, deaf_to_keys

#: Editors that take `+LINE` before the name of a file.
_TAKE_LINE = (
    "vi", "vim", "nvim", "view", "ex", "nano", "pico", "emacs", "emacsclient", "jed", "joe", "mg", "ne", "kak",
)
_BAD_EDIT = re.compile(r"BadEdit (\d+) (\w+) at (\d+)")
#: How long the user's editor may take to save its text where all is ended: by itself, and after a signal. In seconds.
_PATIENCE = (0.5, 5.0)

#: The file with the text, in a folder of its own.
TEXT = "program.f"


class NoEditor(Exception):
    """The editor couldn't be started, or ended badly."""


class Draft:
    """The text of an edit until the program takes it, or the user drops it.

    While the user's editor is open, its folder may hold a later text, and what that editor puts beside it. What was
    rescued is a text with such files beside it, and the user's editor finds all of it.
    """

    def __init__(self, lines: Sequence[str], rescued: Optional[str] = None) -> None:
        self.lines = list(lines)
        self._rescued = rescued
        self.folder: Optional[str] = None
        #: Whether the user's editor is still open at the end, since no signal has ended it.
        self.is_open = False

    @property
    def text(self) -> str:
        """The text as a file."""
        return "".join(line + "\n" for line in self.lines)

    def edit(self, line: int) -> None:
        """Has the text edited in $VISUAL or $EDITOR, which is shown this line first.

        Where that is ended by a signal, the folder stays.
        """
        words = _words()
        place = [f"+{line}"] if Path(words[0]).name in _TAKE_LINE else []
        try:
            self.folder = tempfile.mkdtemp(prefix="pedx-")
            file = os.path.join(self.folder, TEXT)
            if self._rescued is not None:
                shutil.copytree(self._rescued, self.folder, symlinks=True, dirs_exist_ok=True)
            else:
                files.create(file, self.text.encode(ENCODING))
        except OSError as error:
            self._close()
            raise NoEditor(f"cannot write the text for {words[0]}: {cause(error)}") from error
        self._rescued = None
        status = self._run([*words, *place, file])
        try:
            self.lines = split_lines(files.read_bytes(file).decode(ENCODING))
        except OSError as error:
            raise NoEditor(f"cannot read what {words[0]} has left in {file}: {cause(error)}") from error
        self._close()
        if status != 0:
            raise NoEditor(f"{words[0]} ended with status {status}, so nothing was changed")

    def _run(self, command: List[str]) -> int:
        """Starts the user's editor, and answers its status once it has ended."""
        with deaf_to_keys():
            try:
                editor = subprocess.Popen(command)
            except (OSError, ValueError) as error:
                self._close()
                message = f"cannot start {command[0]}: {cause(error)}; $EDITOR names the editor"
                raise NoEditor(message) from error
            try:
                return editor.wait()
            except Ended as end:
                self.is_open = not _is_ended(editor, end.number)
                raise

    def _close(self) -> None:
        if self.folder is not None:
            shutil.rmtree(self.folder, ignore_errors=True)
            self.folder = None


def _words() -> List[str]:
    """The words that start the user's editor."""
    named = os.environ.get("VISUAL") or os.environ.get("EDITOR") or "vi"
    try:
        words = shlex.split(named)
    except ValueError as error:
        raise NoEditor(f"$EDITOR isn't understood: {error}") from error
    return words or ["vi"]


def _is_ended(editor: "subprocess.Popen[bytes]", number: int) -> bool:
    """Gives the user's editor time to save its text and to end, then passes the signal on. It's never killed."""
    for seconds in _PATIENCE:
        try:
            editor.wait(seconds)
            return True
        except subprocess.TimeoutExpired:
            editor.send_signal(number)
    return False


def refused_line(refusal: str) -> Optional[int]:
    """The line of an edited program at which it is refused."""
    match = _BAD_EDIT.fullmatch(refusal)
    return int(match.group(3)) if match else None


def about_refusal(refusal: str) -> str:
    """Why an edited program is refused, in words."""
    match = _BAD_EDIT.fullmatch(refusal)
    if match is None:
        return f"refused {refusal}"
    number, name, line = match.groups()
    known = REFUSALS.get(int(number))
    rule = f": {known.rule}; {known.instead}" if known is not None else ""
    return f"line {line}: {number} {name}{rule}"
