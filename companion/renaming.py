"""Names in an exported program: which are in use, which have to be replaced, and new ones in their place.

The texts are statements as ped prints them, with a blank after each word. So the names of a statement are tokens of
it. A text without blanks wouldn't do: `DO K0 = 1, 3` is `DOK0=1,3` there.
"""

from __future__ import annotations

import re
from typing import Dict, FrozenSet, Iterable, Iterator, List, Mapping, Tuple

from .program import Program
from .statements import Assignment, BlockIf, Declaration, Do, Form, Parameter, Print, Private, Read, Save

#: A character constant, an operator between periods, or a word.
_TOKEN = re.compile(r"'[^']*'|\.[A-Z]+\.|[A-Z][A-Z0-9]*")
_FUNCTIONS = frozenset(["ABS", "IABS", "MAX", "MAX0", "MIN", "MIN0", "MOD"])

#: The forms that hold names of variables, arrays and constants, each with the words before the first of them.
_FIRST_WORDS: Dict[type, re.Pattern[str]] = {
    Assignment: re.compile(""),
    BlockIf: re.compile(" *IF"),
    Declaration: re.compile(" *(INTEGER|DIMENSION)"),
    Do: re.compile(" *(PARALLEL *)?DO"),
    Parameter: re.compile(" *PARAMETER"),
    Print: re.compile(" *PRINT"),
    Private: re.compile(" *PRIVATE"),
    Read: re.compile(" *READ"),
    Save: re.compile(" *SAVE"),
}
_LAST_WORD = re.compile("THEN *$")


class Names:
    """The words of some statements, and new names that are none of them."""

    def __init__(self, texts: Iterable[str]) -> None:
        self._taken = {match.group() for text in texts for match in _TOKEN.finditer(text)}

    def new(self) -> str:
        """The first of K0, K1 and so on that is in no statement and wasn't given before."""
        name = next(name for name in (f"K{number}" for number in range(10**6)) if name not in self._taken)
        self._taken.add(name)
        return name


def called_functions(texts: Iterable[str]) -> FrozenSet[str]:
    """The intrinsic functions that some statements call."""
    return frozenset(match.group() for text in texts for match in _TOKEN.finditer(text) if _is_called(text, match))


def clashing_names(program: Program, statements: Iterable[Tuple[Form, str]], called: FrozenSet[str]) -> List[str]:
    """The names that FORTRAN or a compiler takes for something else, in the order of their letters.

    A scalar or a constant may have the name of a function. Compilers take an assignment to a scalar that begins with
    PARAMETER for a PARAMETER statement without parentheses, and a DO of a variable that begins with CONCURRENT for a
    DO CONCURRENT.
    """
    names = {match.group() for form, text in statements for match in _names(form, text)}
    return sorted(
        name for name in names
        if name in called
        or name.startswith("PARAMETER") and name not in program.arrays
        or name.startswith("CONCURRENT") and name in program.variables
    )


def renamed(form: Form, text: str, new_names: Mapping[str, str]) -> str:
    """A statement with new names in place of some of its names."""
    pieces = []
    done = 0
    for match in _names(form, text) if new_names else ():
        if match.group() in new_names:
            pieces.extend([text[done:match.start()], new_names[match.group()]])
            done = match.end()
    return "".join([*pieces, text[done:]])


def _names(form: Form, text: str) -> Iterator[re.Match[str]]:
    """The names of variables, arrays and constants in a statement."""
    words = _FIRST_WORDS.get(type(form))
    first = words.match(text) if words is not None else None
    if first is None:
        return
    last = _LAST_WORD.search(text) if isinstance(form, BlockIf) else None
    for match in _TOKEN.finditer(text, first.end(), last.start() if last is not None else len(text)):
        if match.group()[0].isalpha() and not _is_called(text, match):
            yield match


def _is_called(text: str, match: re.Match[str]) -> bool:
    """Whether a token is a function that is called. Before a parenthesis such a name is always the function."""
    return match.group() in _FUNCTIONS and text[match.end():match.end() + 1] == "("
