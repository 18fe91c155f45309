"""`pedx profile`: how often each loop was entered, its iterations, and its share of all executed statements."""

from __future__ import annotations

from ..counting import Counts
from ..program import Loop
from ..views import View
from .loops import COUNTED, columns, header, verdict


def profile(view: View, counts: Counts) -> str:
    """The table of the loops of a program whose run was counted, the most expensive first."""
    loops = sorted(view.program.loops.values(), key=lambda loop: (-counts.loops[loop.number].executed, loop.number))
    rows = [f"{view.name}: {counts.total:,} statements executed"]
    if not loops:
        return f"{rows[0]}, none of them in a loop\n"
    width = max(len(header(loop)) for loop in loops)
    rows.append(f"{'S':>4} {'line':>5}  {'loop':{width}}  {COUNTED}  verdict")
    rows.extend(_row(view, counts, loop, width) for loop in loops)
    return "".join(row.rstrip() + "\n" for row in rows)


def _row(view: View, counts: Counts, loop: Loop, width: int) -> str:
    line = view.program.statement(loop.number).line
    return f"{loop.number:4} {line:5}  {header(loop):{width}}  {columns(counts, loop)}  {verdict(view, loop)}"
