"""Names of a user's program as names of ped's profile, and back.

A name of the profile has 1 to 31 capital letters and digits and begins with a letter. A user's name that is so, and
is none of the profile's words, stays as it is. Any other becomes `KnX` with a number n. So does a name of the user
that looks like one of these itself, so that no two names ever meet, whatever comes later.
"""

from __future__ import annotations

import re
from typing import Dict

#: The word of the model for what is not known: a scalar that nobody assigns, and with a number further ones.
OPAQUE = "OPQ"

#: The words of the profile: those with which statements begin or go on, and its functions.
WORDS = frozenset("""
    PROGRAM IMPLICIT INTEGER DIMENSION PARAMETER SAVE READ PRINT IF THEN ELSE ELSEIF END ENDIF DO ENDDO PARALLEL
    PARALLELDO PRIVATE CONTINUE STOP CALL SUBROUTINE RETURN FUNCTION DATA GOTO WHILE DOWHILE REAL LOGICAL CHARACTER
    COMPLEX DOUBLE DOUBLEPRECISION BLOCKDATA COMMON EQUIVALENCE EXTERNAL INTRINSIC ENTRY FORMAT ASSIGN PAUSE WRITE
    OPEN CLOSE INQUIRE BACKSPACE ENDFILE REWIND MOD ABS IABS MAX MAX0 MIN MIN0
""".split())

_NAME = re.compile(r"[A-Z][A-Z0-9]{0,30}")
#: The names that a model makes for itself.
_MADE = re.compile(rf"K[0-9]+X|{OPAQUE}[0-9]*")
#: A name, a component, one in parentheses, and what only procedures see.
_ALONE = re.compile(r"[\w%:]+|/\w*/(:\w+)?|\([\w%]+\)")
_WORD = re.compile(r"[A-Z][A-Z0-9]*")


def is_profile_name(name: str) -> bool:
    """Whether a user's name, in capitals, stays as it is in a model."""
    return bool(_NAME.fullmatch(name)) and name not in WORDS and not _MADE.fullmatch(name)


class Naming:
    """The names of one model.

    A key is a user's name, in capitals, or the text of an expression that the model has one scalar for. Equal keys
    have one name, and no two keys have the same one.
    """

    def __init__(self) -> None:
        self._names: Dict[str, str] = {}
        self._keys: Dict[str, str] = {}
        self._counted: Dict[str, str] = {}
        self._made = 0

    def name(self, key: str) -> str:
        """The profile's name for a key, the same each time."""
        if key not in self._names:
            name = key if is_profile_name(key) else self._next()
            self._names[key] = name
            self._keys[name] = key
        return self._names[key]

    def fresh(self, variable: str = "") -> str:
        """A name of the model's own, which no key has; it may count the DO of a variable of the user's."""
        name = self._next()
        if variable:
            self._counted[name] = variable
        return name

    def counted_by(self, name: str) -> str:
        """The user's variable of the DO that a name of the model counts; empty where the DO is the model's own."""
        return self._counted.get(name, "") or self._keys.get(name, "")

    def key(self, name: str) -> str:
        """What a name of the model stands for; the name itself where that is nothing of the user's."""
        return self._keys.get(name, name)

    def is_users(self, name: str) -> bool:
        """Whether a name of the model stands for something of the user's."""
        return name in self._keys

    def put_back(self, text: str) -> str:
        """A text about the model with what its names stand for. An expression that is no name gets parentheses."""
        return _WORD.sub(lambda match: self._restored(match.group()), text)

    def _restored(self, name: str) -> str:
        key = self.key(name)
        return key if key == name or _ALONE.fullmatch(key) else f"({key})"

    def _next(self) -> str:
        self._made += 1
        return f"K{self._made}X"
