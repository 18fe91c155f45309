"""`pedx json`: what ped shows of a program, for other tools. docs/COMPANION.md describes the schema."""

from __future__ import annotations

import json
from typing import Dict, List, Optional

from ..output import readable
from ..panes import Dependence, SourceRow
from ..program import Loop, Statement
from ..references import Reference
from ..statements import Assignment, BlockIf, Do, Print, Read
from ..subscripts import step_of
from ..views import View

#: The number of the schema. It rises when a key changes its meaning or goes.
SCHEMA = 1

_KINDS = {Assignment: "assignment", BlockIf: "if", Do: "do", Print: "print", Read: "read"}

#: A value of JSON.
Value = object


def export(view: View) -> str:
    """The whole document."""
    program = view.program
    places = {id(row): place for place, row in enumerate(view.dependences)}
    document: Dict[str, Value] = {
        "schema": SCHEMA,
        "file": readable(view.name),
        "program": program.name,
        "arrays": {name: list(bounds) for name, bounds in view.printed.arrays.items()},
        "constants": view.printed.constants,
        "saved": sorted(view.printed.saved),
        "source": [_source_row(row) for row in view.panes.source],
        "statements": [_statement(view, statement) for statement in program.statements],
        "loops": [_loop(view, loop, places) for loop in program.loops.values()],
        "references": [_reference(reference) for reference in program.references()],
        "dependences": [_dependence(view, row) for row in view.dependences],
    }
    entries = ",\n".join(f'"{key}": {_dumped(value)}' for key, value in document.items())
    return f"{{\n{entries}\n}}\n"


def _dumped(value: Value) -> str:
    """A value of the document; a list of objects has one on each line."""
    if isinstance(value, list) and value and isinstance(value[0], dict):
        return "[\n" + ",\n".join(f"  {json.dumps(item)}" for item in value) + "\n]"
    return json.dumps(value)


def _source_row(row: SourceRow) -> Dict[str, Value]:
    return {"line": row.line, "statement": row.statement, "text": readable(row.text)}


def _statement(view: View, statement: Statement) -> Dict[str, Value]:
    return {
        "number": statement.number,
        "kind": _KINDS.get(type(statement.form), "stop"),
        "line": statement.line,
        "printed_line": view.printed.statement(statement.number).line,
        "loops": list(statement.loops),
        "ifs": list(statement.ifs),
    }


def _loop(view: View, loop: Loop, places: Dict[int, int]) -> Dict[str, Value]:
    form = view.printed.loops[loop.number].form
    return {
        "statement": loop.number,
        "variable": loop.variable,
        "level": loop.level,
        "last_statement": loop.last,
        "parallel": loop.form.parallel,
        "initial": form.first.text,
        "limit": form.last.text,
        "increment": step_of(view.printed, loop),
        "private": [name.name for name in loop.private],
        "rejected": loop.rejected,
        "carries": [places[id(row)] for row in view.carried_by(loop)],
    }


def _reference(reference: Reference) -> Dict[str, Value]:
    start, end = reference.span
    return {
        "statement": reference.statement,
        "number": reference.number,
        "name": reference.name,
        "writes": reference.writes,
        "text": reference.text,
        "subscripts": [subscript.text for subscript in reference.subscripts],
        "start": list(start),
        "end": list(end),
    }


def _dependence(view: View, row: Dependence) -> Dict[str, Value]:
    carrier = view.carrier(row)
    loop: Optional[int] = carrier.number if carrier is not None else None
    vectors: List[List[str]] = [list(vector) for vector in row.vectors]
    return {
        "source": list(row.source),
        "sink": list(row.sink),
        "name": row.name,
        "kind": row.kind,
        "level": row.level,
        "loop": loop,
        "vectors": vectors,
        "distances": list(row.distances),
        "mark": row.mark,
    }
