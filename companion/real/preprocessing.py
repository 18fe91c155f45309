"""Conditions of the preprocessor, and which lines they leave out.

A name counts as defined or undefined only where that is said: a compiler defines some names by itself. A condition with
any other name isn't decided.
"""

from __future__ import annotations

import re
from dataclasses import dataclass, field
from typing import Callable, Dict, List, Mapping, Optional, Sequence

_TOKEN = re.compile(r"\s*(?:(\d+)[uUlL]*|([A-Za-z_]\w*)|(&&|\|\||==|!=|<=|>=|[-+*/%<>!()]))")
_SPLICED = re.compile(r"\\\n")
_COMMENT = re.compile(r"/\*.*?(\*/|$)|//.*")
_NAME = re.compile(r"[A-Za-z_]\w*")
_LINE = re.compile(r"\s*#\s*([a-z]+)\b\s*(.*)", re.DOTALL)


class BadDefinition(Exception):
    """A definition that isn't written as one."""


@dataclass(frozen=True)
class Macros:
    """The names that are settled: those defined, with their values, and those that aren't defined.

    The value of a name is none where it's no whole number.
    """

    defined: Mapping[str, Optional[int]] = field(default_factory=dict)
    undefined: Sequence[str] = ()

    #: As they were given: `NAME` or `NAME=VALUE`.
    texts: Sequence[str] = ()

    @property
    def flags(self) -> Sequence[str]:
        """The words for a compiler, which is told to have a preprocessor."""
        words = [*(f"-D{text}" for text in self.texts), *(f"-U{name}" for name in self.undefined)]
        return ["-cpp", *words] if words else []

    @property
    def are_there(self) -> bool:
        """Whether anything is settled."""
        return bool(self.defined or self.undefined)

    def used_in(self, text: str) -> Optional[str]:
        """A defined name that a line of Fortran has, in place of which the preprocessor puts its value."""
        return next((word for word in _NAME.findall(text) if word in self.defined), None) if self.defined else None


def macros(defines: Sequence[str], undefines: Sequence[str] = ()) -> Macros:
    """The macros of `NAME`, which is 1, and `NAME=VALUE`. Raises BadDefinition."""
    found: Dict[str, Optional[int]] = {}
    for text in defines:
        name, equals, value = text.partition("=")
        if not _NAME.fullmatch(name):
            raise BadDefinition(f"{text} defines no name; NAME or NAME=VALUE does")
        value = value if equals else "1"
        found[name] = int(value) if re.fullmatch(r"-?\d+", value) else None
    for name in undefines:
        if not _NAME.fullmatch(name):
            raise BadDefinition(f"{name} is no name")
        if name in found:
            raise BadDefinition(f"{name} is both defined and undefined")
    return Macros(found, tuple(undefines), tuple(defines))


class Conditions:
    """The conditions around the lines of a file, one line of the preprocessor after the other."""

    def __init__(self, settled: Macros) -> None:
        self._settled = settled
        self._open: List[_Open] = []

    @property
    def leaves_out(self) -> bool:
        """Whether the lines here are left out for certain."""
        return any(one.is_out for one in self._open)

    def take(self, line: str) -> bool:
        """Takes a line of the preprocessor; answers whether its condition is decided, so that it needs no notice."""
        match = _LINE.match(line)
        word, rest = (match.group(1), match.group(2)) if match else ("", "")
        if word in ("if", "ifdef", "ifndef"):
            is_inside = self.leaves_out
            # Without any definition it isn't even certain that there is a preprocessor.
            value = True if is_inside else self._value(word, rest) if self._settled.are_there else None
            self._open.append(_Open(value is not None, bool(value), is_inside or value is False))
            return value is not None
        if word in ("elif", "else", "endif"):
            return self._further(word, rest)
        return self.leaves_out

    def _further(self, word: str, rest: str) -> bool:
        if not self._open:
            return False
        one = self._open[-1]
        if word == "endif":
            self._open.pop()
            return one.is_decided
        if not one.is_decided:
            return False
        is_inside = any(other.is_out for other in self._open[:-1])
        value = True if word == "else" else False if one.was_taken or is_inside else self._value("if", rest)
        if value is None:
            one.is_decided, one.is_out = False, False
            return False
        one.is_out = is_inside or one.was_taken or not value
        one.was_taken = one.was_taken or value
        return True

    def _value(self, word: str, rest: str) -> Optional[bool]:
        """Whether a condition holds; none where that isn't decided."""
        text = _COMMENT.sub("", _SPLICED.sub(" ", rest)).strip()
        if word == "if":
            value = _Reader(text, self._settled).value()
            return None if value is None else value != 0
        is_defined = _is_defined(text, self._settled)
        return is_defined if word == "ifdef" or is_defined is None else not is_defined


@dataclass
class _Open:
    """An `#if` without its `#endif` so far: whether it is decided, whether a branch was taken, whether this one isn't."""

    is_decided: bool
    was_taken: bool
    is_out: bool


def _is_defined(name: str, settled: Macros) -> Optional[bool]:
    if name in settled.defined:
        return True
    return False if name in settled.undefined else None


class _Reader:
    """Reads an expression; what isn't known is none."""

    def __init__(self, text: str, settled: Macros) -> None:
        self._settled = settled
        self._tokens: List[str] = []
        self._is_whole = True
        at = 0
        while at < len(text):
            match = _TOKEN.match(text, at)
            if match is None:
                self._is_whole = not text[at:].strip()
                break
            self._tokens.append(match.group(match.lastindex or 0))
            at = match.end()

    def value(self) -> Optional[int]:
        """The value of all of it; none where it isn't known or can't be read."""
        try:
            found = self._level(0)
        except (IndexError, ValueError):
            return None
        return found if self._is_whole and not self._tokens else None

    def _level(self, level: int) -> Optional[int]:
        """An expression of operators of one level, from left to right."""
        if level == len(_LEVELS):
            return self._operand()
        left = self._level(level + 1)
        while self._tokens and self._tokens[0] in _LEVELS[level]:
            compute = _LEVELS[level][self._tokens.pop(0)]
            left = compute(left, self._level(level + 1))
        return left

    def _operand(self) -> Optional[int]:
        token = self._tokens.pop(0)
        if token in ("!", "-", "+"):
            value = self._operand()
            return None if value is None else int(not value) if token == "!" else -value if token == "-" else value
        if token == "(":
            value = self._level(0)
            self._close()
            return value
        if token.isdigit():
            return int(token, 8 if token.startswith("0") else 10)
        if not _NAME.fullmatch(token):
            raise ValueError(token)
        return self._name(token)

    def _name(self, token: str) -> Optional[int]:
        if token == "defined":
            has_parentheses = self._tokens[0] == "("
            if has_parentheses:
                self._tokens.pop(0)
            found = _is_defined(self._tokens.pop(0), self._settled)
            if has_parentheses:
                self._close()
            return None if found is None else int(found)
        if self._tokens[:1] == ["("]:
            raise ValueError(token)
        return self._settled.defined[token] if token in self._settled.defined else (
            0 if token in self._settled.undefined else None
        )

    def _close(self) -> None:
        if self._tokens.pop(0) != ")":
            raise ValueError(")")


_Compute = Callable[[Optional[int], Optional[int]], Optional[int]]


def _both(compute: Callable[[int, int], int]) -> _Compute:
    """An operator that needs the values of both its operands."""
    return lambda left, right: None if left is None or right is None else int(compute(left, right))


def _or(left: Optional[int], right: Optional[int]) -> Optional[int]:
    return 1 if left or right else None if left is None or right is None else 0


def _and(left: Optional[int], right: Optional[int]) -> Optional[int]:
    return 0 if 0 in (left, right) else None if left is None or right is None else 1


def _quotient(left: Optional[int], right: Optional[int]) -> Optional[int]:
    if left is None or not right:
        return None
    return abs(left) // abs(right) * (1 if (left < 0) == (right < 0) else -1)


def _rest(left: Optional[int], right: Optional[int]) -> Optional[int]:
    found = _quotient(left, right)
    return None if left is None or right is None or found is None else left - found * right


#: The operators, those that bind least first.
_LEVELS: Sequence[Mapping[str, _Compute]] = (
    {"||": _or},
    {"&&": _and},
    {"==": _both(int.__eq__), "!=": _both(int.__ne__)},
    {"<": _both(int.__lt__), ">": _both(int.__gt__), "<=": _both(int.__le__), ">=": _both(int.__ge__)},
    {"+": _both(int.__add__), "-": _both(int.__sub__)},
    {"*": _both(int.__mul__), "/": _quotient, "%": _rest},
)
