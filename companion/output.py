"""What is written where a user reads it. On a terminal nothing but text that can be seen gets out.

A file or another program gets the bytes as they are.
"""

from __future__ import annotations

import codecs
import locale
import os
import stat
import sys
from contextlib import suppress
from typing import BinaryIO, Iterator, TextIO

from . import files
from .ped import ENCODING

_HIDDEN = "?"


def use_locale() -> None:
    """Takes the letters of the user's locale; where the host lacks a locale of UTF-8, those of another one."""
    for name in ("", *_instead()):
        try:
            locale.setlocale(locale.LC_CTYPE, name)
            return
        except locale.Error:
            pass


def _instead() -> Iterator[str]:
    """The names of the locales that are tried where that of the environment isn't there."""
    named = (os.environ.get(key) for key in ("LC_ALL", "LC_CTYPE", "LANG"))
    wanted = next((name for name in named if name), "").partition("@")[0]
    if wanted.upper().replace("-", "").endswith(".UTF8"):
        yield from ("C.UTF-8", "C.utf8", "en_US.UTF-8")
    yield "C"


def terminal_encoding() -> str:
    """The encoding that a terminal of the present locale takes."""
    try:
        return codecs.lookup(locale.nl_langinfo(locale.CODESET)).name
    except (AttributeError, LookupError):
        return "ascii"


def readable(text: str) -> str:
    """A text as it was meant: in UTF-8 where its bytes are that."""
    try:
        return text.encode(ENCODING).decode("utf-8")
    except UnicodeError:
        return text


def printable(text: str, encoding: str = "utf-8") -> str:
    """A text with a `?` for each character that isn't one to be seen, or that the encoding lacks.

    So no character is an order to a terminal, and columns stay where they are.
    """
    if not text.isprintable():
        text = "".join(letter if letter.isprintable() else _HIDDEN for letter in text)
    return text if text.isascii() else text.encode(encoding, "replace").decode(encoding)


def visible(text: str) -> str:
    """A text as a terminal can show it: readable, and printable."""
    return printable(readable(text))


def write(stream: BinaryIO, text: str) -> None:
    """Writes a text to a stream; an OSError says that it doesn't take all of it."""
    if stream.isatty():
        encoding = terminal_encoding()
        data = _lines_of(text, encoding).encode(encoding, "replace")
    else:
        data = text.encode(ENCODING, "replace")
    stream.write(data)
    stream.flush()


def _lines_of(text: str, encoding: str) -> str:
    """The lines of a text as a terminal can show them; tabs stay."""
    lines = (readable(line).split("\t") for line in text.split("\n"))
    return "\n".join("\t".join(printable(part, encoding) for part in parts) for parts in lines)


def tell(messages: str) -> None:
    """Writes messages to standard error; that they can't be written changes nothing."""
    if sys.stderr is not None:
        with suppress(OSError):
            write_or_close(sys.stderr, messages)


def write_or_close(stream: TextIO, text: str) -> None:
    """Writes a text to a stream. Where that fails, nothing is written to it any more, also not at the end."""
    try:
        write(stream.buffer, text)
    except OSError:
        os.dup2(os.open(os.devnull, os.O_WRONLY), stream.fileno())
        raise


def write_to(name: str, text: str) -> None:
    """Writes a text to a file, or to what else has the name."""
    if not _is_terminal(name):
        files.put(name, text.encode(ENCODING, "replace"))
        return
    with open(name, "wb") as stream:
        write(stream, text)


def _is_terminal(name: str) -> bool:
    with suppress(OSError):
        if stat.S_ISCHR(os.stat(name).st_mode):
            descriptor = os.open(name, os.O_WRONLY | os.O_NONBLOCK | getattr(os, "O_NOCTTY", 0))
            try:
                return os.isatty(descriptor)
            finally:
                os.close(descriptor)
    return False
