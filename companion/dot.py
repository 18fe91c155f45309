"""Dependence graphs as text for graphviz."""

from __future__ import annotations

from typing import Dict, Iterator, Optional, Sequence, Set, Tuple

from .panes import Dependence
from .program import Loop, Statement
from .views import View

#: How an edge is drawn: by who carries the dependence, and by its mark.
_COLOURS = {"carried": "red", "inner": "blue", "independent": "black"}
_STYLES = {"proven": "solid", "pending": "dashed", "rejected": "dotted"}

#: Rows that are drawn as one edge: source and sink, the name, the kind, the level and the mark.
_Edge = Tuple[int, int, str, str, Optional[int], str]


def dot_text(view: View, loop: Optional[Loop]) -> str:
    """The graph of the statements of a loop, or of all; a loop inside is a frame round its statements.

    The edges are the dependences that hold between two statements of the loop in one execution of it: those that it
    or a loop inside it carries, and those within one iteration.
    """
    return "".join(line + "\n" for line in _Graph(view, loop).lines())


class _Graph:
    """A graph: the statements that are drawn, and the edges between them."""

    def __init__(self, view: View, loop: Optional[Loop]) -> None:
        self._program = view.program
        self._view = view
        self._loop = loop
        self._edges = self._counted([row for row in view.dependences if self._belongs(row)])
        self._ends: Set[int] = {number for edge in self._edges for number in edge[:2]}

    def lines(self) -> Iterator[str]:
        """The lines of the text."""
        title = self._view.name if self._loop is None else f"{self._view.name}: {_title(self._loop)}"
        yield f"digraph {_quoted(title)} {{"
        yield f"  label={_quoted(title)};"
        yield '  node [shape=box, fontname="monospace"];'
        yield '  edge [fontname="monospace"];'
        yield from self._nodes(self._loop.nest if self._loop is not None else (), "  ")
        for edge, count in self._edges.items():
            yield f"  {self._edge(edge, count)}"
        yield "}"

    def _belongs(self, row: Dependence) -> bool:
        if self._loop is None:
            return True
        inside = row.source[0] in self._loop and row.sink[0] in self._loop
        return inside and (row.level is None or row.level >= self._loop.level)

    @staticmethod
    def _counted(rows: Sequence[Dependence]) -> Dict[_Edge, int]:
        counts: Dict[_Edge, int] = {}
        for row in rows:
            edge = (row.source[0], row.sink[0], row.name, row.kind, row.level, row.mark)
            counts[edge] = counts.get(edge, 0) + 1
        return counts

    def _nodes(self, nest: Tuple[int, ...], indent: str) -> Iterator[str]:
        """The statements whose loops are these, and frames of the loops in them."""
        for statement in self._program.statements:
            loop = self._program.loops.get(statement.number)
            if statement.loops != nest:
                continue
            if loop is None or statement.number in self._ends:
                yield f"{indent}{statement.number} [label={_quoted(self._label(statement))}];"
            if loop is not None:
                yield f"{indent}subgraph cluster_{loop.number} {{"
                yield f"{indent}  label={_quoted(_title(loop))};"
                yield from self._nodes(loop.nest, indent + "  ")
                yield f"{indent}}}"

    def _label(self, statement: Statement) -> str:
        """A statement's number and its first line."""
        start, end = statement.span
        text = self._view.lines[start.line - 1][start.column - 1:end.column if end.line == start.line else 72]
        return f"{statement.number}: {text.strip()}"

    def _edge(self, edge: _Edge, count: int) -> str:
        source, sink, name, kind, level, mark = edge
        label = f"{name} {kind}" + (f" {level}" if level is not None else "") + (f" x{count}" if count > 1 else "")
        style = _STYLES[mark]
        return f"{source} -> {sink} [label={_quoted(label)}, color={self._colour(level)}, style={style}];"

    def _colour(self, level: Optional[int]) -> str:
        if level is None:
            return _COLOURS["independent"]
        return _COLOURS["carried" if self._loop is None or level == self._loop.level else "inner"]


def _title(loop: Loop) -> str:
    return f"loop {loop.number}, {'PARALLEL DO' if loop.form.parallel else 'DO'} {loop.variable}"


def _quoted(text: str) -> str:
    """A text as a quoted name of graphviz."""
    escaped = text.replace("\\", "\\\\").replace('"', '\\"')
    return f'"{escaped}"'
