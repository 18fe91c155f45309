"""Which statement a text is, by its first words: all that is known of a statement before the library reads it.

In fixed form blanks mean nothing outside character constants, so they are taken out. In free form they end words. A
text that has the form of an assignment is one, whatever its first letters are.
"""

from __future__ import annotations

import re
from dataclasses import dataclass
from typing import FrozenSet, List, Pattern, Tuple

_CONSTANT = re.compile(r"'(?:[^']|'')*(?:'|$)|\"(?:[^\"]|\"\")*(?:\"|$)")
_HOLLERITH = re.compile(r"(?<![A-Z0-9_])[0-9]+H", re.IGNORECASE)
_WORD = re.compile(r"[A-Z_][A-Z0-9_$]*")
_NAME = re.compile(r" *[A-Z_][A-Z0-9_$]* *")
_PARENTHESIS = re.compile(r"[()\[\]]")

_TYPE = (
    r"((INTEGER|REAL|DOUBLE *PRECISION|DOUBLE *COMPLEX|COMPLEX|LOGICAL|CHARACTER|BYTE)~"
    r"|(TYPE|CLASS|RECORD) *(?=[(/]))"
)
_PREFIX = r"(RECURSIVE|PURE|ELEMENTAL|IMPURE|MODULE|NON_RECURSIVE)"
_TYPE_WITH_KIND = r"(" + _TYPE + r"( *\* *([0-9]+|\([^()]*\))| *\((?:[^()]|\([^()]*\))*\))?)"


@dataclass(frozen=True)
class Letters:
    """A statement's text as words are looked for in it.

    `full` has capitals outside character constants, and in fixed form no blanks there. `masked` is as long, and each
    letter of a constant is an apostrophe in it.
    """

    full: str
    masked: str

    def part(self, first: int, last: int) -> Letters:
        """Some of the letters, up to but without the last one, without blanks at its ends."""
        masked = self.masked[first:last]
        left = len(masked) - len(masked.lstrip(" "))
        right = left + len(masked.strip(" "))
        return Letters(self.full[first:last][left:right], masked[left:right])

    def closing(self, opening: int) -> int:
        """The index of the parenthesis that closes the one at an index; the text's end where there is none."""
        depth = 0
        for match in _PARENTHESIS.finditer(self.masked, opening):
            depth += 1 if match.group() in "([" else -1
            if depth == 0:
                return match.start()
        return len(self.masked)

    def outside(self, letter: str, first: int = 0) -> List[int]:
        """The indices at which a letter is outside parentheses and constants."""
        found, depth = [], 0
        for index in range(first, len(self.masked)):
            here = self.masked[index]
            depth += (here in "([") - (here in ")]")
            if here == letter and depth == 0:
                found.append(index)
        return found


def letters_of(text: str, form: str) -> Letters:
    """The letters of a statement."""
    full, masked, begin = [], [], 0
    for match in _CONSTANT.finditer(text):
        between = _outside_constants(text[begin:match.start()], form)
        full += [between, match.group()]
        masked += [between, "'" * len(match.group())]
        begin = match.end()
    rest = _outside_constants(text[begin:], form)
    return Letters("".join([*full, rest]), "".join([*masked, rest]))


def _outside_constants(text: str, form: str) -> str:
    capitals = _upper(text)
    return capitals.replace(" ", "") if form == "fixed" else capitals


def _upper(text: str) -> str:
    """Capitals for the letters from a to z; a text never gets longer."""
    return text.upper() if text.isascii() else re.sub("[a-z]+", lambda match: match.group().upper(), text)


def words_of(text: str) -> FrozenSet[str]:
    """The words of a text outside character constants, in capitals: at least all names that occur in it.

    Where blanks may be inside a name, or a Hollerith constant may hold a quote, there are more of them.
    """
    if _HOLLERITH.search(text):
        return frozenset(_WORD.findall(_upper(text))) | frozenset(_WORD.findall(_outside_constants(text, "fixed")))
    found = set(_WORD.findall(letters_of(text, "free").masked))
    if " " in text:
        found.update(_WORD.findall(letters_of(text, "fixed").masked))
    return frozenset(found)


def keyword_of(letters: Letters, form: str) -> str:
    """The kind of a statement: a key of `convert.READERS`; empty where it's unknown."""
    masked = letters.masked
    end = _designator_end(letters)
    if masked[end:end + 2] == "=>":
        return "=>"
    if masked[end:end + 1] == "=" and masked[end + 1:end + 2] != "=":
        is_do = form == "fixed" and masked.startswith("DO") and letters.outside(",", end)
        return "DO" if is_do else "="
    for word, patterns in _KEYWORDS:
        if patterns[form == "fixed"].match(masked):
            return _if(letters) if word == "IF" else word
    return ""


def _designator_end(letters: Letters) -> int:
    """Where the designator ends that a text begins with; 0 where it begins with none."""
    end = 0
    match = _NAME.match(letters.masked)
    while match is not None:
        end = match.end()
        while letters.masked[end:end + 1] in ("(", "["):
            end = letters.closing(end) + 1
            while letters.masked[end:end + 1] == " ":
                end += 1
        match = _NAME.match(letters.masked, end + 1) if letters.masked[end:end + 1] == "%" else None
    return end


def _if(letters: Letters) -> str:
    """Which IF a text is."""
    rest = letters.part(letters.closing(letters.masked.index("(")) + 1, len(letters.masked)).masked
    if rest == "THEN":
        return "IF THEN"
    return "ARITHMETIC IF" if re.fullmatch(r"[0-9]+( *, *[0-9]+)+", rest) else "IF"


def _patterns(template: str) -> Tuple[Pattern[str], Pattern[str]]:
    """Patterns for free and fixed form. A blank means any number of them; `~` ends a word, in free form alone."""
    pattern = template.replace(" *", " ").replace(" ", " *")
    return re.compile(pattern.replace("~", r"\b *")), re.compile(pattern.replace("~", ""))


_FUNCTION = rf"({_PREFIX}~|{_TYPE_WITH_KIND} )*FUNCTION~[A-Z]\w* \( ([A-Z]\w* (, [A-Z]\w* )*)?\)"

_TEMPLATES: List[Tuple[str, str]] = [
    ("END FILE", r"END FILE~"),
    ("END", r"END( (DO|IF|SELECT|WHERE|FORALL|ASSOCIATE|BLOCK DATA|BLOCK|CRITICAL|PROGRAM|SUBROUTINE|FUNCTION|MODULE"
            r"|SUBMODULE|PROCEDURE|TYPE|INTERFACE|ENUM)~ [A-Z0-9_$]*)? *$"),
    ("END", r"END INTERFACE~"),
    ("DO", r"DO~( *[0-9]+|$| *[0-9]* *,? *WHILE *\(| *[0-9]* *,? *CONCURRENT *\(| *[A-Z]\w* *=)"),
    ("ELSE IF", r"ELSE IF *\("),
    ("ELSE", r"ELSE~[A-Z0-9_]*$(?<!WHERE)"),
    ("ELSEWHERE", r"ELSE WHERE"),
    ("IF", r"IF *\("),
    ("SELECT CASE", r"SELECT CASE *\("),
    ("SELECT TYPE", r"SELECT (TYPE|RANK) *\("),
    ("CASE", r"CASE *(\(|DEFAULT)"),
    ("TYPE GUARD", r"(TYPE IS *\(|CLASS IS *\(|CLASS DEFAULT|RANK *(\(|DEFAULT))"),
    ("WHERE", r"WHERE *\("),
    ("FORALL", r"FORALL *\("),
    ("ASSOCIATE", r"ASSOCIATE *\("),
    ("BLOCK DATA", r"BLOCK DATA~"),
    ("BLOCK", r"(BLOCK|CRITICAL)( *\(.*\))?$"),
    ("CALL", r"CALL~[A-Z]"),
    ("CONTINUE", r"CONTINUE$"),
    ("CONTAINS", r"CONTAINS$"),
    ("GO TO", r"GO TO *[0-9]+$"),
    ("COMPUTED GO TO", r"GO TO *\("),
    ("ASSIGNED GO TO", r"GO TO *[A-Z]"),
    ("ASSIGN", r"ASSIGN *[0-9]+ *TO~[A-Z]"),
    ("CYCLE", r"(CYCLE|EXIT)~[A-Z0-9_]*$"),
    ("RETURN", r"RETURN~"),
    ("STOP", r"(ERROR STOP|STOP|PAUSE)~"),
    ("READ", r"READ *[^A-Z_\x20]"), ("READ", r"READ~[A-Z]"),
    ("WRITE", r"WRITE *\("),
    ("PRINT", r"PRINT *[^A-Z_\x20]"), ("PRINT", r"PRINT~[A-Z]"),
    ("OPEN", r"OPEN *\("), ("CLOSE", r"CLOSE *\("), ("INQUIRE", r"INQUIRE *\("), ("WAIT", r"WAIT *\("),
    ("REWIND", r"REWIND *\(?[A-Z0-9*]"), ("BACKSPACE", r"BACKSPACE *\(?[A-Z0-9*]"), ("FLUSH", r"FLUSH *\(?[A-Z0-9*]"),
    ("ALLOCATE", r"ALLOCATE *\("), ("DEALLOCATE", r"DEALLOCATE *\("), ("NULLIFY", r"NULLIFY *\("),
    ("FUNCTION", _FUNCTION),
    ("SUBROUTINE", rf"({_PREFIX}~)*SUBROUTINE~[A-Z]"),
    ("MODULE PROCEDURE", r"MODULE PROCEDURE~( *::)?[A-Z]"),
    ("PROGRAM", r"PROGRAM~[A-Z]"), ("SUBMODULE", r"SUBMODULE *\("), ("MODULE", r"MODULE~[A-Z]"),
    ("ENTRY", r"ENTRY~[A-Z]"),
    ("FORMAT", r"FORMAT *\("),
    ("INTERFACE", r"(ABSTRACT~)?INTERFACE~"),
    ("ENUM", r"ENUM *, *BIND"), ("ENUMERATOR", r"ENUMERATOR~"),
    ("PROCEDURE", r"(PROCEDURE *(\(|::|,)|GENERIC *(::|,)|FINAL *(::|,)?)"), ("PROCEDURE", r"PROCEDURE~[A-Z]"),
    ("DERIVED TYPE", r"TYPE *(,|::)"), ("DERIVED TYPE", r"TYPE~[A-Z]\w*( *\([A-Z0-9_,\x20]*\))?$"),
    ("TYPE DECLARATION", _TYPE),
    ("IMPLICIT", r"IMPLICIT~"), ("PARAMETER", r"PARAMETER *\("), ("COMMON", r"COMMON~"),
    ("EQUIVALENCE", r"EQUIVALENCE *\("), ("DATA", r"DATA~"), ("NAMELIST", r"NAMELIST */"),
    ("USE", r"USE *(,|::|~[A-Z])"), ("IMPORT", r"IMPORT~"), ("SEQUENCE", r"SEQUENCE$"),
    ("CRAY POINTER", r"POINTER *\("),
    ("ATTRIBUTE", r"(DIMENSION|CODIMENSION|ALLOCATABLE|POINTER|TARGET|SAVE|INTENT|EXTERNAL|INTRINSIC|OPTIONAL|VALUE"
                  r"|VOLATILE|ASYNCHRONOUS|PROTECTED|CONTIGUOUS|PUBLIC|PRIVATE|BIND)~"),
]

_KEYWORDS: List[Tuple[str, Tuple[Pattern[str], Pattern[str]]]] = [
    (word, _patterns(template)) for word, template in _TEMPLATES
]

#: Statements of a specification part; FORMAT, DATA and ENTRY may be in bodies, too.
DECLARATIONS: FrozenSet[str] = frozenset([
    "TYPE DECLARATION", "IMPLICIT", "PARAMETER", "COMMON", "EQUIVALENCE", "DATA", "NAMELIST", "USE", "IMPORT",
    "SEQUENCE", "CRAY POINTER", "ATTRIBUTE", "PROCEDURE", "MODULE PROCEDURE", "ENUM", "ENUMERATOR", "FORMAT", "ENTRY",
    "INCLUDE",
])
