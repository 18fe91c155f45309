"""`pedx page`: a program beside its dependences, as one file for a browser."""

from __future__ import annotations

import json
from base64 import b64encode
from hashlib import sha256
from html import escape
from pathlib import Path
from typing import Dict, Iterator, List, Sequence, Tuple

from ..advice import Adviser
from ..lines import Span
from ..output import readable
from ..panes import Dependence
from ..ped import Ped
from ..program import Loop
from ..progress import Progress
from ..trials import carried_names
from ..variables import variables_of
from ..views import View
from .loops import header, verdict
from .why import headline, reasons, when

_FOLDER = Path(__file__).resolve().parents[1] / "page"

#: A value of JSON.
Value = object

#: A part of a line: the line, the first column and the last, from 1 on.
Piece = Tuple[int, int, int]


def page(view: View, ped: Ped, tries: bool, progress: Progress = Progress()) -> str:
    """The text of the page. What is of the program stands in it as data alone, never as markup or script."""
    style, script = _file("page.css"), _file("page.js")
    parts = {
        "TITLE": escape(readable(view.name)).encode("ascii", "xmlcharrefreplace").decode("ascii"),
        "POLICY": f"default-src 'none'; style-src {_digest(style)}; script-src {_digest(script)}",
        "STYLE": style,
        "SCRIPT": script,
        "DATA": _dumped(document(view, ped, tries, progress)),
    }
    return "".join(parts.get(word, word) if at % 2 else word for at, word in enumerate(_file("page.html").split("@@")))


def _file(name: str) -> str:
    return (_FOLDER / name).read_text(encoding="utf-8")


def _digest(text: str) -> str:
    """What the page's policy says of the one style and the one script that may act in it."""
    return f"'sha256-{b64encode(sha256(text.encode()).digest()).decode()}'"


def _dumped(value: Value) -> str:
    """A value as JSON that ends no element of a page and begins none."""
    text = json.dumps(value, separators=(",", ":"))
    return text.replace("&", "\\u0026").replace("<", "\\u003c").replace(">", "\\u003e")


def document(view: View, ped: Ped, tries: bool, progress: Progress) -> Dict[str, Value]:
    """What the page shows."""
    loops = list(view.program.loops.values())
    adviser = Adviser(view, ped, loops, tries, progress)
    # Of an IF and the statement in it, which stand on one line, the IF has the line.
    statements = {statement.line: statement.number for statement in reversed(view.program.statements)}
    return {
        "file": readable(view.name),
        "refused": [readable(row) for row in view.complaints],
        "source": [[statements.get(line), readable(text)] for line, text in enumerate(view.lines, 1)],
        "loops": [_loop(view, adviser, loop) for loop in loops],
        "references": {
            _key(one.key): {"pieces": list(_pieces(view.lines, one.span)), "text": one.text, "writes": one.writes}
            for one in view.program.references()
        },
        "rows": [_row(view, row) for row in view.dependences],
    }


def _loop(view: View, adviser: Adviser, loop: Loop) -> Dict[str, Value]:
    carries = bool(carried_names(view.carried_by(loop)))
    state = "carries" if carries else "parallel" if loop.form.parallel else "free"
    return {
        "statement": loop.number,
        "line": view.program.statement(loop.number).line,
        "last": loop.last,
        "level": loop.level,
        "header": header(loop).strip(),
        "parallel": loop.form.parallel,
        "state": state,
        "verdict": verdict(view, loop),
        "advice": list(_advice(view, adviser, loop)),
        "variables": [variable._asdict() for variable in variables_of(view, loop)],
    }


def _advice(view: View, adviser: Adviser, loop: Loop) -> Iterator[str]:
    carried = view.carried_by(loop)
    for name in carried_names(carried):
        yield from adviser.about_name(loop, name, [row for row in carried if row.name == name and not row.is_rejected])
    yield from adviser.about_loop(loop)


def _row(view: View, row: Dependence) -> List[Value]:
    """A row: source, sink, name, kind, level, its loop, vectors, distances, mark, and what `why` says of it."""
    carrier = view.carrier(row)
    told = [headline(view, row) + "; the sink comes " + when(view, row), *reasons(view, row)]
    return [
        _key(row.source), _key(row.sink), row.name, row.kind, row.level, carrier.number if carrier else None,
        [",".join(vector) for vector in row.vectors], _distances(row), row.mark, told,
    ]


def _distances(row: Dependence) -> str:
    return ",".join("*" if distance is None else str(distance) for distance in row.distances)


def _key(place: Tuple[int, int]) -> str:
    return f"{place[0]}.{place[1]}"


def _pieces(lines: Sequence[str], span: Span) -> Iterator[Piece]:
    """The parts of lines over which a reference goes."""
    start, end = span
    for line in range(start.line, end.line + 1):
        first = start.column if line == start.line else 7
        last = end.column if line == end.line else min(72, len(lines[line - 1]))
        if first <= last:
            yield line, first, last
