"""The library fparser, which reads statements of Fortran: where it's found, and how its classes are prepared.

It is loaded when the first real file is read, never before: a program of ped's profile needs none of it.
"""

from __future__ import annotations

import importlib
import logging
import os
import sys
from dataclasses import dataclass
from functools import lru_cache
from importlib import metadata
from typing import Any, List, Optional

#: The version that all tests are run with; another one is used with a note.
VERSION = "0.0.16"

#: The folder in which Debian's package is, and the variable of the environment that names another one.
DEBIAN = "/usr/lib/python3/dist-packages"
FOLDER_VARIABLE = "PEDX_FPARSER"

MISSING = (
    "real Fortran is read by the Python library fparser, which isn't there; `apt-get install python3-fparser` installs "
    "it (or `pip install fparser`), and PEDX_FPARSER names a folder that holds it"
)


class LibraryMissing(Exception):
    """The library fparser isn't there, or has none of the classes that are wanted of it."""


@dataclass(frozen=True)
class Classes:
    """What is used of the library: `standard` and `later` hold its classes, `reader` joins lines.

    `no_match` is what a class raises where a text isn't of its form.
    """

    standard: Any
    later: Any
    reader: Any
    line_format: Any
    no_match: Any
    #: A note for the user about the version, none where it's the one that was tested.
    note: Optional[str]

    def named(self, name: str) -> Any:
        """A class of statements or expressions by its name, that of Fortran 2008 where both have it."""
        found = getattr(self.later, name, None)
        return getattr(self.standard, name) if found is None else found


@lru_cache(maxsize=None)
def statement_classes() -> Classes:
    """The library's classes, prepared once. Raises `LibraryMissing`."""
    _quieten()
    try:
        importlib.import_module("fparser")
    except ImportError:
        sys.path.extend(_folders())
        importlib.invalidate_caches()
    try:
        return _prepared()
    except (ImportError, AttributeError, KeyError) as error:
        raise LibraryMissing(MISSING) from error


def _folders() -> List[str]:
    """Where else the library may be; they come last on the path, so that nothing else is found in them first."""
    named = os.environ.get(FOLDER_VARIABLE)
    return [folder for folder in (named, DEBIAN) if folder and folder not in sys.path]


def _quieten() -> None:
    """Keeps the library's messages from the user: what can't be read, the companion reports by itself."""
    logger = logging.getLogger("fparser")
    logger.addHandler(logging.NullHandler())
    logger.propagate = False


def _prepared() -> Classes:
    factory = importlib.import_module("fparser.two.parser").ParserFactory()
    factory.create(std="f2008")
    standard = importlib.import_module("fparser.two.Fortran2003")
    # A name of an intrinsic may be an array. So each `NAME(..)` is read as a part, and symbols say what NAME is.
    for primary in ("Primary", "Level_1_Expr"):
        subclasses = standard.Base.subclasses[primary]
        if standard.Intrinsic_Function_Reference in subclasses:
            subclasses.remove(standard.Intrinsic_Function_Reference)
    utilities = importlib.import_module("fparser.two.utils")
    reading = importlib.import_module("fparser.common.readfortran")
    return Classes(
        standard=standard,
        later=importlib.import_module("fparser.two.Fortran2008"),
        reader=reading.FortranStringReader,
        line_format=importlib.import_module("fparser.common.sourceinfo").FortranFormat,
        no_match=utilities.NoMatchError,
        note=_note(),
    )


def _note() -> Optional[str]:
    try:
        version = metadata.version("fparser")
    except metadata.PackageNotFoundError:
        version = "of an unknown version"
    return None if version == VERSION else f"fparser {version} is used; {VERSION} is the version that was tested"
