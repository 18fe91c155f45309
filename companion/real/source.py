"""Lines of a file, laid out for the library's reader, one for each line of the user's.

The reader keeps text after column 72 of fixed form, or strips no `!` comments there; it takes no tab before the digit
of a continuation line; it drops lines with `!$`; it takes a `0` in column 6 for a continuation; after a letter in
columns 1 to 5 it goes on in free form; and a backslash escapes a quote to it. So none of these is left to it: lines are
cut, tabs are laid out as gfortran does, and lines that are no part of a statement are emptied.
"""

from __future__ import annotations

import re
from dataclasses import dataclass, field
from typing import Dict, List, Optional, Sequence, Tuple

from ..languages import FREE_SUFFIXES
from ..lines import split_lines
from .preprocessing import Conditions, Macros

#: Stands for a backslash, which is an ordinary character in Fortran. No file has it, as files are read as latin-1.
BACKSLASH = "\ue000"

#: Stands for a blank at the end of a line of fixed form that goes on: inside a constant it counts.
BLANK = "\ue001"

#: Stands for a `!` in a constant. Where a constant goes over lines, the reader loses count of its quotes.
EXCLAMATION = "\ue002"

_INCLUDE = re.compile(r"""\s*include\s*('[^']*'|"[^"]*")\s*(?:!.*)?$""", re.IGNORECASE)
_CONDITION = re.compile(r"\s*#\s*(if|ifdef|ifndef|elif|endif|define|undef|include)\b")
_CONDITIONAL = re.compile(r"#\s*(el)?if")
_QUOTE_OR_COMMENT = re.compile("['\"!]")
_FREE_LABEL = re.compile(r"\s*([0-9]+)\s*(?:!.*)?$")


@dataclass(frozen=True)
class Mark:
    """Lines that are no statement but may change what the program means.

    `kind` is `directive` (`!$OMP`, `!$ACC`), `conditional` (`!$ `, which a compiler with -fopenmp reads as a
    statement), `preprocessor` (`#`, from an `#if` that isn't decided to its `#endif` in one mark; and a line with a name
    that is defined) or `include` (an INCLUDE whose file wasn't found). `text` is the first line; `file` is as in
    `items.Item`.

    A conditional line matters outside a loop, too: what it may read is live after the loop.
    """

    kind: str
    first: int
    last: int
    text: str
    file: str = ""

    @property
    def words(self) -> str:
        """The first line, and what would help."""
        text = self.text.strip()
        return f"{text}; --define and --undefine decide it" if _CONDITIONAL.match(text) else text


@dataclass
class Source:
    """The lines of a file and what the reader gets for them.

    `layout` has a line for each of `lines`. In it `?12?` marks what no statement can be read from: an INCLUDE of
    line 12, whose file is in `includes`, or text that is in `broken`, with the reason.
    """

    lines: Tuple[str, ...]
    form: str
    layout: List[str] = field(default_factory=list)
    marks: List[Mark] = field(default_factory=list)
    includes: Dict[int, str] = field(default_factory=dict)
    broken: Dict[int, Tuple[str, str]] = field(default_factory=dict)


def form_of(path: str) -> str:
    """`free` or `fixed`, by a file's suffix."""
    return "free" if path.lower().endswith(FREE_SUFFIXES) else "fixed"


def read_source(text: str, form: str, columns: int = 72, macros: Macros = Macros()) -> Source:
    """The lines of a text, laid out. `columns` is the last column of fixed form that counts; free form has none.

    What `macros` leave out is empty. A control Z ends the program: what follows is no part of it, but its lines are kept.
    """
    source = Source(tuple(split_lines(text)), form)
    layout: _Layout = _Fixed(source, columns) if form == "fixed" else _Free(source)
    conditions = _Preprocessor(source, macros)
    for number, line in enumerate(split_lines(text.partition("\x1a")[0]), 1):
        source.layout.append("" if conditions.takes(number, line) else layout.laid_out(number, line))
        conditions.look(number, source.layout[-1])
    conditions.finish()
    source.layout += [""] * (len(source.lines) - len(source.layout))
    return source


class _Preprocessor:
    """Finds lines with `#`. Those from an `#if` to its `#endif` are one mark; all after `#define` are one, too.

    What an `#include` brings may define names, so it counts as a `#define`. An `#if` that is decided is none.
    """

    def __init__(self, source: Source, macros: Macros) -> None:
        self._source = source
        self._macros = macros
        self._conditions = Conditions(macros)
        #: The `#if`s that are open; none for those that are decided.
        self._open: List[Optional[Tuple[int, str]]] = []
        self._goes_on = False

    def takes(self, number: int, line: str) -> bool:
        """Whether a line is the preprocessor's: it begins with `#`, or goes on with such a line after a backslash.

        What is left out is so, too.
        """
        if not self._goes_on and not line.lstrip(" ")[:1] == "#":
            return self._conditions.leaves_out
        if self._source.form == "fixed" and not line.startswith("#") and not self._goes_on:
            return self._conditions.leaves_out
        if not self._goes_on:
            self._begin(number, self._whole(number, line))
        self._goes_on = line.endswith("\\")
        return True

    def look(self, number: int, layout: str) -> None:
        """Marks a line that the preprocessor changes, since it has a name that is defined."""
        name = self._macros.used_in(layout)
        if name is not None:
            self._mark(number, number, f"{name}, which --define replaces")

    def _whole(self, number: int, line: str) -> str:
        """A line with those that it goes on with."""
        last = number
        while line.endswith("\\") and last < len(self._source.lines):
            last += 1
            line = f"{line}\n{self._source.lines[last - 1]}"
        return line

    def _begin(self, number: int, line: str) -> None:
        match = _CONDITION.match(line)
        word = match.group(1) if match else ""
        is_decided = self._conditions.take(line)
        text = line.partition("\n")[0]
        if word in ("if", "ifdef", "ifndef"):
            self._open.append(None if is_decided else (number, text))
        elif word == "endif" and self._open:
            found = self._open.pop()
            if found is not None and not any(self._open):
                self._mark(found[0], number, found[1])
        elif word == "elif" and not is_decided and self._open and self._open[-1] is None:
            self._open[-1] = number, text
        elif is_decided or any(self._open) and word not in ("define", "undef", "include"):
            return
        elif word in ("define", "undef", "include"):
            self._mark(number, len(self._source.lines), text)
        else:
            self._mark(number, number, text)

    def finish(self) -> None:
        """Ends an `#if` that is open where the file ends."""
        first = next(filter(None, self._open), None)
        if first is not None:
            self._mark(first[0], len(self._source.lines), first[1])

    def _mark(self, first: int, last: int, text: str) -> None:
        self._source.marks.append(Mark("preprocessor", first, last, text))


class _Layout:
    """What both forms have in common."""

    def __init__(self, source: Source) -> None:
        self._source = source
        #: The quote of the constant that goes on in the next line, empty where there is none.
        self._quote = ""

    def laid_out(self, number: int, line: str) -> str:
        """The line for the reader."""
        raise NotImplementedError

    def _break(self, number: int, text: str, fault: str) -> str:
        """The mark for text from which no statement can be read."""
        self._source.broken[number] = (text, fault)
        return f"?{number}?"

    def _code(self, text: str) -> str:
        """A part of a statement without the comment after it."""
        found, begin = [], 0
        for match in _QUOTE_OR_COMMENT.finditer(text):
            here = match.group()
            if not self._quote and here == "!":
                found.append(text[begin:match.start()])
                return "".join(found)
            if here == "!":
                found += [text[begin:match.start()], EXCLAMATION]
                begin = match.end()
            elif not self._quote or here == self._quote:
                self._quote = "" if self._quote else here
        return "".join([*found, text[begin:]])

    def _include(self, number: int, statement: str) -> Optional[str]:
        """The mark for an INCLUDE; none where a line is none."""
        match = _INCLUDE.match(statement)
        if match is None:
            return None
        self._source.includes[number] = match.group(1)[1:-1]
        return f"?{number}?"

    def _comment(self, number: int, line: str) -> str:
        """Notes what a comment says to compilers; `line` begins with the comment's character."""
        kind = sentinel_kind(line)
        if kind:
            self._source.marks.append(Mark(kind, number, number, self._source.lines[number - 1]))
        return ""


def sentinel_kind(comment: str) -> str:
    """`directive` for `!$OMP` and `!$ACC`, `conditional` for `!$ ` before a statement, else empty.

    A comment such as `!$Id: ..$` is none of them.
    """
    after = comment[1:]
    if after[:1] != "$":
        return ""
    if after[1:4].upper() in ("OMP", "ACC"):
        return "directive"
    return "conditional" if after[1:2] in ("", " ", "\t", "&") or after[1:2].isdigit() else ""


class _Free(_Layout):
    """Free form: blank lines for comments, blanks for tabs."""

    def laid_out(self, number: int, line: str) -> str:
        """The line for the reader."""
        line = _plain(line)
        statement = line.lstrip()
        if statement.startswith("!"):
            return self._comment(number, statement)
        include = self._include(number, line)
        if include is not None:
            return include
        label = _FREE_LABEL.match(line)
        if label is not None:
            return f"{label.group(1)} {self._break(number, '', 'there is no statement after its label')}"
        line = self._code(line)
        if statement and not line.rstrip().endswith("&"):
            self._quote = ""
        return line


class _Fixed(_Layout):
    """Fixed form: columns 1 to 5 for a label, column 6 for continuation, the statement up to the last column."""

    def __init__(self, source: Source, columns: int) -> None:
        super().__init__(source)
        self._columns = columns
        #: The line that a continuation line goes on from; none before the first one and after an INCLUDE.
        self._last: Optional[int] = None

    def laid_out(self, number: int, line: str) -> str:
        """The line for the reader."""
        if line[:1] in ("C", "c", "*", "!"):
            return self._comment(number, line)
        line = _plain(_tabbed(line))[:self._columns].rstrip(" ")
        if not line or (line.lstrip(" ").startswith("!") and line.find("!") != 5):
            return ""
        label, sixth, statement = line[:5].replace(" ", ""), line[5:6], line[6:]
        if sixth in (" ", "0", ""):
            return self._initial(number, label, statement, line)
        if label:
            return self._broken_line(number, line, "there is a label on a continuation line")
        if self._last is None:
            return self._broken_line(number, line, "there is no line that this one goes on from")
        before = self._source.layout[self._last - 1]
        self._source.layout[self._last - 1] = before.ljust(self._columns, BLANK)
        self._last = number
        return f"     &{self._code(statement)}"

    def _initial(self, number: int, label: str, statement: str, line: str) -> str:
        """The first line of a statement."""
        include = self._include(number, statement)
        self._last = number if include is None else None
        if include is not None:
            return f"      {include}"
        if label and not (label.isdigit() and label.isascii()):
            return self._broken_line(number, line, "there is more than a label in columns 1 to 5")
        if label and not statement.strip():
            # Further lines may go on from here, and the label is theirs.
            statement = self._break(number, "", "there is no statement after its label")
        self._quote = ""
        return f"{label:<5} {self._code(statement)}"

    def _broken_line(self, number: int, line: str, fault: str) -> str:
        self._last = number
        return f"      {self._break(number, line, fault)}"


def _tabbed(line: str) -> str:
    """A line of fixed form without the tab in its first six columns, which goes to column 7.

    A digit other than 0 after it is that of column 6. Any later tab is one blank. This is how gfortran reads them.
    """
    tab = line.find("\t")
    if not 0 <= tab < 6:
        return line
    rest = line[tab + 1:]
    width = 5 if "1" <= rest[:1] <= "9" else 6
    return line[:tab].ljust(width) + rest


def _plain(line: str) -> str:
    """A line without characters that mean something to the library and nothing in Fortran."""
    return line.translate(_PLAIN)


_PLAIN = {ord("\t"): " ", ord("\f"): " ", ord("\v"): " ", ord("\r"): " ", ord("\\"): BACKSLASH}


def as_written(text: str) -> str:
    """A text of the reader's with the characters that were replaced for it."""
    return text.replace(BACKSLASH, "\\").replace(BLANK, " ").replace(EXCLAMATION, "!").strip()


def code_lines(source: Source) -> Sequence[int]:
    """The numbers of the lines on which there is some of a statement."""
    return [number for number, line in enumerate(source.layout, 1) if line.strip(f" &;{BLANK}")]
