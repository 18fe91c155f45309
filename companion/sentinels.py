"""Comments that some compiler reads as a directive.

Each compiler has comments of its own that it obeys: OpenMP and OpenACC read `C$OMP`, `C$ACC` and `C$`, gfortran
`CGCC$`, others `CDIR$`, `CDEC$`, `CPGI$`, `CIBM*`, `CVOCL`, `C*$*`. All of these signs begin in column 2, directly
after the letter of the comment. So no list of them is needed: no compiler obeys a comment whose column 2 is blank.
"""

from __future__ import annotations

import re

#: What ped reads itself, and no compiler does.
_DIRECTIVE_OF_PED = "$PED"
#: A line drawn across the page.
_DRAWN = re.compile(r"([-=+*.#~_/:])\1{3}")


def harmless(comment: str) -> str:
    """A comment in a form that no compiler reads as a directive: where it has to be, with a blank in column 2.

    A line drawn of one sign stays as it is, and so does a directive C$PED. Compilers may skip zero bytes and carriage
    returns; so these don't count as a blank, and nothing that comes after them reaches column 2.
    """
    text = comment[1:]
    if text[:1] in ("", " ") or text.startswith(_DIRECTIVE_OF_PED) or _DRAWN.match(text):
        return comment
    return f"{comment[0]} {text}"
