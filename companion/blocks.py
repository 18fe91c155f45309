"""The blocks of CALLs in a printed program, found by its lines alone.

docs/COMMANDS.md says what a block is: an IF without ELSE, with the condition `0.EQ.0`, whose first statement is a
comment that begins with `$CALL `.
"""

from __future__ import annotations

from dataclasses import dataclass
from typing import Dict, List, Optional, Sequence

from .lines import is_comment
from .panes import SourceRow

_HEADER = "IF (0.EQ.0) THEN"
_MARK = "$CALL "


@dataclass(frozen=True)
class Block:
    """A block: the statement of its IF, the CALL, and its first and its last line."""

    number: int
    call: str
    first_line: int
    last_line: int


@dataclass
class _If:
    """An IF that is open: its row, and the CALL whose block it may be."""

    row: SourceRow
    call: Optional[str]


def blocks_of(source: Sequence[SourceRow]) -> Dict[int, Block]:
    """The blocks of a printed program by their statements, in the order of the text."""
    found: Dict[int, Block] = {}
    open_ifs: List[_If] = []
    for row, following in zip(source, [*source[1:], None]):
        text = row.text.strip()
        if is_comment(row.text):
            continue
        if row.statement is not None and text.startswith("IF ("):
            open_ifs.append(_If(row, _call(text, following)))
        elif text == "ELSE" and open_ifs:
            open_ifs[-1].call = None
        elif text == "END IF" and open_ifs:
            ended = open_ifs.pop()
            if ended.call is not None and ended.row.statement is not None:
                number = ended.row.statement
                found[number] = Block(number, ended.call, ended.row.line, row.line)
    return dict(sorted(found.items()))


def _call(text: str, following: Optional[SourceRow]) -> Optional[str]:
    """The CALL of an IF with this text, where the next row says that it is one's block."""
    if text != _HEADER or following is None or not is_comment(following.text):
        return None
    comment = following.text[1:]
    return comment[len(_MARK):].rstrip() if comment.startswith(_MARK) else None


def block_at(blocks: Dict[int, Block], line: int) -> Optional[Block]:
    """The innermost block on whose lines a line is."""
    round_it = [block for block in blocks.values() if block.first_line <= line <= block.last_line]
    return max(round_it, key=lambda block: block.first_line) if round_it else None
