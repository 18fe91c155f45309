"""What kind of text a file is that ped refuses: one in free form, or one without a main program."""

from __future__ import annotations

import re
from typing import Iterator, Sequence

from .lines import is_comment, read_statements
from .statements import Assignment, read_form

#: A statement that begins in columns 1 to 6, where fixed form has no letter but the mark of a comment.
_EARLY = re.compile(
    r" {0,5}(?:(?:program|module|subroutine|integer|implicit|dimension|parameter|save|use|do|if|else|end|enddo|endif|"
    r"print|read|write|stop|return)\b|call +\w+ *(?:\(.*)?$|continue *$|[abd-z]\w*(?: *\([^()]*\))? *=)",
    re.IGNORECASE,
)
#: A comment, a declaration or a continuation as free form alone has it.
_FREE = re.compile(r" *!| *\w.*::|.*& *$")
#: Units that are no main program.
_UNITS = ("SUBROUTINE", "FUNCTION", "INTEGERFUNCTION", "BLOCKDATA")


def notes(lines: Sequence[str]) -> Iterator[str]:
    """What is to be said of a file as a whole."""
    if looks_free(lines):
        yield (
            "this looks like free form; ped reads fixed form, with labels in columns 1 to 5 and statements in columns "
            "7 to 72"
        )
        return
    statements = read_statements(lines)
    if not statements:
        yield "there is no main program: the file has no statement"
        return
    letters = statements[0].text.letters
    unit = next((one for one in _UNITS if letters.startswith(one)), None)
    if unit is not None and not isinstance(read_form(statements[0].text), Assignment):
        yield (
            "there is no main program: the file begins with another unit; the main program comes first, and ends with "
            "END"
        )


def looks_free(lines: Sequence[str]) -> bool:
    """Whether most lines of a text are written as in free form."""
    free = [line for line in lines if _EARLY.match(line) or not is_comment(line) and _FREE.match(line)]
    written = [line for line in lines if not is_comment(line) or _EARLY.match(line)]
    return 2 * len(free) > len(written)
