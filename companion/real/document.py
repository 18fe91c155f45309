"""Verdicts as JSON, for other tools."""

from __future__ import annotations

import json
from typing import Dict, List, Optional, Sequence

from ..ped import ENCODING
from .asking import Carried
from .assumptions import ASSUMPTIONS, in_order
from .directives import Clauses
from .report import by_operator
from .symbols import Scopes
from .units import Fault, File, Unit
from .verdicts import Verdict

#: The number of the schema. It rises when a key changes its meaning or goes.
SCHEMA = 1

#: A value of JSON.
Value = object


def document(name: str, file: File, scopes: Scopes, verdicts: Sequence[Verdict], full: bool = False) -> str:
    """The whole document. With `full` each loop has the text of its model, and its rows."""
    cited = in_order({one for verdict in verdicts for one in verdict.assumes})
    found: Dict[str, Value] = {
        "schema": SCHEMA,
        "kind": "fortran",
        "file": readable(name),
        "form": file.form,
        "units": [unit_value(unit, scopes) for unit in file.all_units()],
        "loops": [loop_value(verdict, full) for verdict in verdicts],
        "assumes": {one: ASSUMPTIONS[one].words for one in cited},
    }
    entries = ",\n".join(f'"{key}": {_dumped(value)}' for key, value in found.items())
    return f"{{\n{entries}\n}}\n"


def _dumped(value: Value) -> str:
    """A value of the document; a list of objects has one on each line."""
    if isinstance(value, list) and value and isinstance(value[0], dict):
        return "[\n" + ",\n".join(f"  {json.dumps(item)}" for item in value) + "\n]"
    return json.dumps(value)


def readable(text: str) -> str:
    """A text as it was meant: in UTF-8 where its bytes are that."""
    try:
        return text.encode(ENCODING).decode("utf-8")
    except (UnicodeDecodeError, UnicodeEncodeError):
        return text


def unit_value(unit: Unit, scopes: Scopes) -> Dict[str, Value]:
    """A unit, and why none of its loops gets a verdict."""
    faults = scopes.of(unit).faults
    line = unit.first_line if unit.head is None else unit.head.item.first
    return {"name": unit.path, "line": line, "refused": _reason(faults[0] if faults else None)}


def _reason(fault: Optional[Fault]) -> Optional[Dict[str, Value]]:
    return None if fault is None else {"class": fault.reason, "line": fault.line, "words": readable(fault.words)}


def loop_value(verdict: Verdict, full: bool) -> Dict[str, Value]:
    """What is said about a loop."""
    place = verdict.place
    found: Dict[str, Value] = {
        "line": place.line,
        "last": place.last_line,
        "unit": place.scene.unit.path,
        "variable": place.variable,
        "level": place.level,
        "header": readable(place.header),
        "verdict": verdict.word,
        **_clauses(verdict.clauses),
        "carries": [_carried(one) for one in verdict.carried],
        "reason": _reason(verdict.refusal),
        "assumes": list(verdict.assumes),
        "would": [{"assume": " ".join(one.assumed), "verdict": one.word} for one in verdict.would],
    }
    if place.file:
        found["file"] = readable(place.file)
    if full:
        found["model"] = None if verdict.model is None else verdict.model.text
        found["rows"] = _rows(verdict)
    return found


def _clauses(clauses: Clauses) -> Dict[str, Value]:
    return {
        "private": list(clauses.private),
        "lastprivate": [*clauses.last, *clauses.last_alone],
        "conditional": list(clauses.conditional),
        "reductions": [{"operator": operator, "names": names} for operator, names in by_operator(clauses)],
        "inductions": [{"name": name, "step": step} for name, step in clauses.inductions],
    }


def _carried(carried: Carried) -> Dict[str, Value]:
    marks = {pair.mark for pair in carried.pairs}
    return {
        "name": carried.name,
        "kinds": list(carried.kinds),
        "rows": len(carried.pairs),
        "mark": marks.pop() if len(marks) == 1 else "pending",
        "lines": [list(lines) for lines in carried.lines],
    }


def _rows(verdict: Verdict) -> List[Dict[str, Value]]:
    """Each pair of references, with their lines and their texts."""
    return [
        {
            "name": carried.name, "kind": pair.kind, "mark": pair.mark,
            "source": {"line": pair.source.line, "text": pair.source.text, "writes": pair.source.writes},
            "sink": {"line": pair.sink.line, "text": pair.sink.text, "writes": pair.sink.writes},
        }
        for carried in verdict.carried for pair in carried.pairs
    ]
