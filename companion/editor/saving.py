"""What is saved: the script of the changes, and the program that they have made."""

from __future__ import annotations

import os
import stat
from contextlib import suppress
from enum import Enum
from typing import Dict, Optional, Tuple

from .. import files
from ..ped import ENCODING, cause, shown
from ..statuses import CompanionError, Status


class What(Enum):
    """What a file holds: the words that ask for its name."""

    SCRIPT = "save the script as"
    PROGRAM = "write the program to"
    OPENMP = "write the OpenMP program to"
    EDIT = "write the text to"
    COMPILED = "compile to"


class Names:
    """The names that are offered for files, from that of the program, and what the editor has written to files."""

    def __init__(self, file: str, script: str = "") -> None:
        stem, ending = os.path.splitext(file)
        self._stem = stem if ending.lower() in (".f", ".for", ".ftn", ".f77") else file
        self.script = script or f"{self._stem}.script"
        self.program = f"{self._stem}-new.f"
        self.openmp = f"{self._stem}-omp.f"
        self.edited = f"{self._stem}-edited.f"
        #: What holds what would be lost: a script, and a folder with the text of an edit.
        self.rescued_script = f"{self._stem}.script.rescued"
        self.rescued_edit = f"{self._stem}.edit.rescued"
        self._own: Dict[str, Tuple[What, bytes]] = {}

    def is_others(self, what: What, name: str) -> bool:
        """Whether a plain file with this name is there that holds anything but what the editor wrote there last.

        A file of another kind counts as others', so that a program isn't written over the script.
        """
        try:
            is_plain = stat.S_ISREG(os.stat(name).st_mode)
        except (OSError, ValueError):
            return False
        own_kind, own = self._own.get(os.path.realpath(name), (None, b""))
        return is_plain and (own_kind is not what or not files.holds(name, own))

    def write(self, what: What, name: str, text: str) -> None:
        """Writes a file that isn't others'."""
        data = text.encode(ENCODING)
        try:
            files.replace(name, data, lambda: not self.is_others(what, name))
        except (OSError, ValueError) as error:
            raise CompanionError(Status.NOT_READ, f"cannot write {shown(name)}: {cause(error)}") from error
        self._own[os.path.realpath(name)] = (what, data)

    def own(self, what: What, name: str, text: Optional[str] = None) -> None:
        """Takes a file as the editor's own while it holds a text; without a text, what it holds now."""
        with suppress(OSError):
            data = files.read_bytes(name) if text is None else text.encode(ENCODING)
            self._own[os.path.realpath(name)] = (what, data)
