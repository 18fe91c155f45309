"""Which language a file is in: a program of ped's profile, or real Fortran, of which ped sees models alone."""

from __future__ import annotations

import os
import re
from typing import Optional, Sequence, Tuple

from .lines import split_lines

#: The suffixes of files in free form, which the profile doesn't have.
FREE_SUFFIXES = (".f90", ".f95", ".f03", ".f08", ".f18")

#: What only a program of the profile has: comments of this kind, and statements that begin so, without blanks.
_COMMENT = re.compile(r"[Cc*]\$PED", re.IGNORECASE)
_PARALLEL = re.compile(r"[0-9]*PARALLELDO[0-9]*[A-Z][A-Z0-9]*=")
_DO = re.compile(r"[0-9]*DO[0-9]*,?[A-Z][A-Z0-9]*=[^,]+,")
_PRIVATE = re.compile(r"PRIVATE[A-Z]")

_WITH_LINE = re.compile(r"(.+):([0-9]{1,9})", re.DOTALL)


def is_real_by_name(name: str) -> bool:
    """Whether the name of a file alone says that it is no program of the profile."""
    return name.lower().endswith(FREE_SUFFIXES)


def has_profile_words(text: str) -> bool:
    """Whether a text has what is in programs of the profile alone: PARALLEL DO, PRIVATE behind a DO, or C$PED."""
    before = ""
    for line in split_lines(text):
        if _COMMENT.match(line):
            return True
        if line[:1] in ("C", "c", "*", "!") or not line.strip():
            continue
        statement = "".join(line.split()).upper()
        if _PARALLEL.match(statement) or _PRIVATE.match(statement) and _DO.match(before):
            return True
        before = statement
    return False


def file_and_line(word: str) -> Tuple[str, Optional[int]]:
    """The file and the line that a word names as FILE:LINE, where no file has the whole name."""
    match = _WITH_LINE.fullmatch(word)
    if match is None or os.path.lexists(word):
        return word, None
    return match.group(1), int(match.group(2))


def is_project(words: Sequence[str]) -> bool:
    """Whether a call names several files, or a folder."""
    return len(words) > 1 or any(map(os.path.isdir, words))
