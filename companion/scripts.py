"""Scripts of a session: which of their lines are commands, and which are the text of an edit.

The rule is that of docs/COMMANDS.md, "Scripts": the lines behind a `replace` or an `insert` are its text, and those
behind a step that ends in `by` are its evidence, up to a line that is a period and nothing else. Where such a line is
written badly it takes no text.
"""

from __future__ import annotations

import re
from dataclasses import dataclass
from typing import Callable, List, Optional, Sequence, Tuple

from .lines import split_lines

_NUMBER = "(?:0|[1-9][0-9]{0,8})"
_EDIT = re.compile(rf"replace {_NUMBER} {_NUMBER}|insert {_NUMBER}")
_BY_EVIDENCE = re.compile(rf"(?:parallel|reverse|interchange) {_NUMBER} by")

#: The line that ends a text.
END_OF_TEXT = "."


@dataclass(frozen=True)
class Command:
    """A line of a script that is no text: its line, its words, and the lines of text behind it."""

    line: int
    words: Tuple[str, ...]
    text: Tuple[str, ...] = ()
    #: Whether the text ends with its period; true for commands without a text.
    closed: bool = True

    @property
    def word(self) -> str:
        """The first word."""
        return self.words[0]

    @property
    def takes_evidence(self) -> bool:
        """Whether the text is evidence for a step."""
        return _BY_EVIDENCE.fullmatch(" ".join(self.words)) is not None

    @property
    def takes_text(self) -> bool:
        """Whether the lines behind the command are its text."""
        return self.takes_evidence or _EDIT.fullmatch(" ".join(self.words)) is not None

    @property
    def written(self) -> Tuple[str, ...]:
        """The lines of the command, with its text and the period behind it."""
        return (" ".join(self.words), *((*self.text, END_OF_TEXT) if self.takes_text else ()))

    @property
    def last_line(self) -> int:
        """The last line that belongs to the command."""
        return self.line + len(self.text) + (1 if self.takes_text and self.closed else 0)


def read_script(script: str) -> List[Command]:
    """The commands of a script, those that ped refuses among them."""
    lines = split_lines(script)
    commands = []
    index = 0
    while index < len(lines):
        words = tuple(re.findall(r"[^ \t]+", lines[index]))
        if words:
            commands.append(_command(lines, index, words))
            index = commands[-1].last_line
        else:
            index += 1
    return commands


def _command(lines: List[str], index: int, words: Tuple[str, ...]) -> Command:
    bare = Command(index + 1, words)
    if not bare.takes_text:
        return bare
    rest = lines[index + 1:]
    if END_OF_TEXT in rest:
        return Command(index + 1, words, tuple(rest[:rest.index(END_OF_TEXT)]))
    return Command(index + 1, words, tuple(rest), closed=False)


@dataclass(frozen=True)
class WovenScript:
    """A script with further commands in it."""

    text: str
    #: For each command of the new script the command of the old one that it is; none for a further command.
    origins: Tuple[Optional[Command], ...]


def weave(script: str, behind: Callable[[Command], Sequence[str]], at_end: Sequence[str]) -> WovenScript:
    """A script with further commands behind some of its own, and at its end.

    Where the script ends in a text without its period, which ped refuses, the further commands stand before it: behind
    it they would be a part of the text.
    """
    old = split_lines(script)
    lines: List[str] = []
    origins: List[Optional[Command]] = []

    def add(further: Sequence[str]) -> None:
        lines.extend(further)
        origins.extend(None for _ in further)

    commands = read_script(script)
    for command in commands:
        if not command.closed:
            add(at_end)
        lines.extend(old[command.line - 1:command.last_line])
        origins.append(command)
        add(behind(command))
    if all(command.closed for command in commands):
        add(at_end)
    return WovenScript("".join(line + "\n" for line in lines), tuple(origins))
