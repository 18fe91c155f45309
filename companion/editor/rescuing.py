"""What is rescued where the editor ends otherwise than the user wants, and what the next start finds of it."""

from __future__ import annotations

import itertools
import os
import re
import shutil
import tempfile
from contextlib import contextmanager, suppress
from typing import Callable, Iterator, List, Optional

from .. import files
from ..ped import ENCODING, cause, shown
from .free_edits import TEXT, Draft
from .saving import Names
from .session import Session


class Rescue:
    """Keeps the script and the text of an edit where they would be lost, each under a name that nothing has."""

    def __init__(self, session: Session, names: Names) -> None:
        self._session = session
        self._names = names
        #: The edit that isn't finished.
        self.draft: Optional[Draft] = None
        #: What was rescued, and what couldn't be, in words.
        self.notes: List[str] = []

    @contextmanager
    def at_bad_end(self) -> Iterator[None]:
        """Rescues where what is done ends by an exception."""
        try:
            yield
        except BaseException:
            self._save()
            raise

    def _save(self) -> None:
        if not self._session.is_saved:
            data = self._session.script.encode(ENCODING)
            if not any(files.holds(name, data) for name in rescued(self._names.rescued_script)):
                self._keep("script", self._names.rescued_script, lambda name: files.create(name, data))
        if self.draft is not None and not _is_idle(self.draft, self._session.present.text):
            self._save_edit(self.draft)

    def _save_edit(self, draft: Draft) -> None:
        self._keep("text of the edit", self._names.rescued_edit, lambda name: _keep_edit(draft, name))
        if draft.folder is not None:
            self.notes.append(f"{shown(draft.folder)} stays as well")

    def _keep(self, what: str, name: str, write: Callable[[str], None]) -> None:
        """Writes beside the program, or else to the folder of temporary files."""
        for place in (name, os.path.join(tempfile.gettempdir(), os.path.basename(name))):
            try:
                self.notes.append(f"the {what} is kept in {shown(_under_free_name(place, write))}")
                return
            except (OSError, ValueError) as error:
                self.notes.append(f"the {what} can't be kept in {shown(place)}: {cause(error)}")


def rescued(name: str) -> List[str]:
    """The names of what was rescued under a name, the latest first."""
    return [_numbered(name, number) for number in sorted(_numbers(name), reverse=True)]


def remove(name: str) -> None:
    """Removes what was rescued."""
    if os.path.isdir(name):
        shutil.rmtree(name)
    else:
        os.unlink(name)


def has_text_alone(name: str) -> bool:
    """Whether what was rescued is a text alone, and the user's editor hasn't left anything beside it."""
    return not os.path.isdir(name) or os.listdir(name) == [TEXT]


def _numbered(name: str, number: int) -> str:
    return name if number == 1 else f"{name}.{number}"


def _numbers(name: str) -> Iterator[int]:
    """The numbers of the names NAME, NAME.2, NAME.3 .. that something has."""
    folder, base = os.path.split(name)
    pattern = re.compile(re.escape(base) + r"(?:\.([1-9]\d*))?")
    with suppress(OSError):
        for entry in os.listdir(folder or os.curdir):
            match = pattern.fullmatch(entry)
            if match is not None:
                yield int(match.group(1) or 1)


def _under_free_name(name: str, write: Callable[[str], None]) -> str:
    """Writes under the next of the names NAME, NAME.2, NAME.3 .., none of which is there, and answers it."""
    for number in itertools.count(max(_numbers(name), default=0) + 1):
        with suppress(FileExistsError):
            write(_numbered(name, number))
            break
    return _numbered(name, number)


def _is_idle(draft: Draft, program: str) -> bool:
    """Whether the text of an edit is just the program, and the user's editor has left nothing beside it."""
    if draft.folder is None:
        return draft.text == program
    try:
        entries = os.listdir(draft.folder)
    except OSError:
        return False
    text = os.path.join(draft.folder, TEXT)
    return not draft.is_open and entries == [TEXT] and files.holds(text, program.encode(ENCODING))


def _keep_edit(draft: Draft, name: str) -> None:
    """Makes a folder with the text of an edit, and with what the user's editor has put beside it."""
    os.mkdir(name, 0o700)
    try:
        if draft.folder is None:
            files.create(os.path.join(name, TEXT), draft.text.encode(ENCODING))
        else:
            shutil.copytree(draft.folder, name, symlinks=True, dirs_exist_ok=True)
    except BaseException:
        shutil.rmtree(name, ignore_errors=True)
        raise
    if draft.folder is not None and not draft.is_open:
        shutil.rmtree(draft.folder, ignore_errors=True)
        draft.folder = None
