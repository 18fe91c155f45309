"""`pedx edit`: the editor on a terminal."""

from __future__ import annotations

import os
import sys
from contextlib import contextmanager
from threading import Timer
from typing import Iterator, Optional

from ..editor.editor import Editor
from ..editor.endings import ended_by_signals
from ..editor.rescuing import Rescue
from ..editor.saving import Names, What
from ..editor.session import Session
from ..editor.terminal import Terminal, on_terminal
from ..messages import NOTE, counted
from ..output import printable, tell, terminal_encoding, visible
from ..ped import Ped, read_file, shown
from ..progress import Progress

#: How long nothing is told of what is done before the terminal is used, in seconds.
_PATIENCE = 1.0


def edit(ped: Ped, file: str, script: Optional[str], data: Optional[str]) -> None:
    """Has a user edit a program.

    A script that is there is carried out first, and is where the changes are saved.
    """
    source = read_file(file)
    # The first call may have the program built, and tells that; later ones would write into the picture.
    with _told(f"pedx: {shown(file)} is read .."):
        session = Session(ped.quiet(), source, ped.show(source))
    names = Names(file, script or "")
    greeting = ""
    if script is not None and os.path.exists(script):
        with _told(f"pedx: {shown(script)} is carried out .."):
            greeting = _begin(session, names, script)
    rescue = Rescue(session, names)
    # Here Ctrl-C still ends the wait for a pipe.
    text = read_file(data) if data is not None else None

    def use(terminal: Terminal) -> None:
        with rescue.at_bad_end():
            editor = Editor(terminal, session, file, names, rescue)
            if data is not None:
                editor.take_data(data, text)
            editor.run(greeting)

    try:
        with ended_by_signals():
            on_terminal(use)
    finally:
        tell("".join(f"pedx: {NOTE}: {note}\n" for note in rescue.notes))


@contextmanager
def _told(words: str) -> Iterator[None]:
    """Tells a user at a terminal what is done, where it takes long."""
    progress = Progress(sys.stderr)
    timer = Timer(_PATIENCE, progress.announce, [printable(visible(words), terminal_encoding())])
    timer.daemon = True
    timer.start()
    try:
        yield
    finally:
        timer.cancel()
        timer.join()
        progress.clear()


def _begin(session: Session, names: Names, script: str) -> str:
    """Carries a script out, and answers what came of it."""
    text = read_file(script)
    refused = session.load(text)
    if session.script == text:
        # Nothing in it is lost where it is written over.
        names.own(What.SCRIPT, script, text)
    words = f"{shown(script)}: {counted(len(session.changes), 'change')}"
    return f"{words}; refused: {counted(len(refused), 'line')}" if refused else words
