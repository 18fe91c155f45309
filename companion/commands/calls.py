"""`pedx calls`: the CALLs of a program, what depends on them, and whether they can be inlined."""

from __future__ import annotations

from ..calls import read_calls
from ..outline import outline_of
from ..ped import Ped
from ..questions import text_of
from ..refusals import refused
from ..views import View

_INDENT = " " * 14


def calls(view: View, ped: Ped) -> str:
    """The table of the CALLs."""
    found = read_calls(ped.session(text_of(view.panes.lines), "calls\n")[0].rows)
    if not found.calls:
        return "no CALLs\n"
    script = text_of(command for number in found.calls for command in (f"inline {number}", "undo"))
    tried = ped.session(text_of(view.panes.lines), script)[::2]
    nests = outline_of(view.panes.source).nests
    rows = [f"{'S':>4} {'line':>5}  CALL"]
    for (number, call), reply in zip(found.calls.items(), tried):
        rows.append(f"{number:4} {view.program.statement(number).line:5}  {call}")
        rows.extend(_INDENT + words for words in found.about(number, nests))
        answer = "ped accepts it" if reply.refusal is None else refused(reply.refusal, "inline")
        rows.append(f"{_INDENT}- `inline {number}`: {answer}")
    return text_of(row.rstrip() for row in rows)
