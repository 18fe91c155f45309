"""`pedx graph`: the dependence graph of a loop for graphviz, or drawn by it."""

from __future__ import annotations

import subprocess
from typing import Optional

from ..dot import dot_text
from ..ped import ENCODING
from ..statuses import CompanionError, Status
from ..views import View
from .loops import find_loop


def graph(view: View, number: Optional[int], svg: bool) -> str:
    """The graph of the loop of a statement, or of the program: as text for `dot`, or as SVG."""
    text = dot_text(view, find_loop(view, number) if number is not None else None)
    return _drawn(text) if svg else text


def _drawn(text: str) -> str:
    """The picture that `dot` makes of a graph."""
    try:
        done = subprocess.run(["dot", "-Tsvg"], input=text.encode(ENCODING), capture_output=True, check=False)
    except OSError as error:
        message = f"cannot start dot of graphviz: {error.strerror}; without --svg the graph is written as text"
        raise CompanionError(Status.NO_DOT, message) from error
    if done.returncode != 0:
        said = done.stderr.decode(ENCODING).strip()
        raise CompanionError(Status.NO_DOT, f"dot of graphviz ended with status {done.returncode}: {said}")
    return done.stdout.decode(ENCODING)
