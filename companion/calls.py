"""The pane of calls: the CALLs of a program, and the dependences between them, as ped shows them.

docs/PANES.md says what its rows are.
"""

from __future__ import annotations

import re
from dataclasses import dataclass
from typing import Dict, Iterator, List, Mapping, Optional, Sequence, Tuple

from .messages import listed
from .panes import KINDS, NoPane, calls_length

_TITLE = re.compile(r"calls (\d+) edges (\d+)")
_CALL = re.compile(r"(\d+) (.*)")
_EDGE = re.compile(rf"(\d+) (\d+) (\S+) ({'|'.join(KINDS)}) (\d+|-)")


@dataclass(frozen=True)
class Edge:
    """A dependence between two CALLs, or between one and a statement: a CALL goes by the statement of its block."""

    source: int
    sink: int
    name: str
    kind: str
    level: Optional[int]


@dataclass(frozen=True)
class Calls:
    """The CALLs by the statements of their blocks, and the dependences."""

    calls: Mapping[int, str]
    edges: Tuple[Edge, ...]

    def about(self, number: int, nests: Mapping[int, Tuple[int, ...]]) -> Iterator[str]:
        """The dependences of a CALL in words, those with one other end that one loop carries together.

        For each statement the loops round it are wanted, the outermost first.
        """
        alike: Dict[Tuple[str, str], Dict[str, List[str]]] = {}
        for edge in self.edges:
            if number in (edge.source, edge.sink):
                where = "in one iteration" if edge.level is None else f"carried by loop {nests[number][edge.level - 1]}"
                alike.setdefault((self._other(number, edge), where), {}).setdefault(edge.name, []).append(edge.kind)
        for (other, where), names in alike.items():
            yield f"{other}, {where}: " + listed([f"{name} ({', '.join(kinds)})" for name, kinds in names.items()])

    def _other(self, number: int, edge: Edge) -> str:
        """The other end of a dependence of a CALL."""
        if edge.source == edge.sink:
            return "to itself"
        other = edge.sink if edge.source == number else edge.source
        name = f"{other} {self.calls[other]}" if other in self.calls else f"statement {other}"
        return f"{'to' if edge.source == number else 'from'} {name}"


def read_calls(rows: Sequence[str]) -> Calls:
    """The pane of calls; nothing else may stand there."""
    if calls_length(rows, 0) != len(rows):
        raise NoPane(rows[-1])
    title = _TITLE.fullmatch(rows[0])
    count = int(title.group(1)) if title is not None else 0
    calls = dict(map(_call, rows[1:count + 1]))
    return Calls(calls, tuple(map(_edge, rows[count + 1:])))


def _call(row: str) -> Tuple[int, str]:
    match = _CALL.fullmatch(row)
    if match is None:
        raise NoPane(row)
    return int(match.group(1)), match.group(2)


def _edge(row: str) -> Edge:
    match = _EDGE.fullmatch(row)
    if match is None:
        raise NoPane(row)
    source, sink, name, kind, level = match.groups()
    return Edge(int(source), int(sink), name, kind, None if level == "-" else int(level))
