"""Programs in which pending rows of elements forbid steps, and the loops that evidence frees; found out by hand."""

from __future__ import annotations

from typing import Dict, List, NamedTuple, Tuple

from .support import fortran


class Wanted(NamedTuple):
    """A program, and for each step the loops where evidence makes ped accept it."""

    source: str
    parallel: Tuple[int, ...] = ()
    reverse: Tuple[int, ...] = ()
    interchange: Tuple[int, ...] = ()


def _program(*statements: str) -> str:
    return fortran(*statements, "END")


PROGRAMS: Dict[str, Wanted] = {
    # K stands in one iteration, and I is greater.
    "triangular": Wanted(_program(
        "INTEGER A(9)", "SAVE A", "DO 10 K=1,8", "DO 20 I=K+1,9", "20 A(I)=A(I)-A(K)", "10 CONTINUE",
    ), parallel=(2,), reverse=(2,), interchange=(1,)),
    # The form by rows is the interchanged one.
    "LU": Wanted(_program(
        "INTEGER A(9,9)", "SAVE A", "READ *,N", "DO 10 K=1,N", "DO 20 I=K+1,N", "A(I,K)=A(I,K)/A(K,K)", "DO 30 J=K+1,N",
        "30 A(I,J)=A(I,J)-A(I,K)*A(K,J)", "20 CONTINUE", "10 CONTINUE",
    ), parallel=(3, 5), reverse=(3, 5), interchange=(2,)),
    # All J of one I are even, or all are odd.
    "red and black": Wanted(_program(
        "INTEGER A(0:10)", "SAVE A", "DO 5 J=0,10", "5 A(J)=J", "DO 10 I=1,2", "DO 10 J=I,9,2",
        "10 A(J)=A(J-1)+A(J+1)",
    ), parallel=(4,)),
    # What is written is below the diagonal, what is read above.
    "transposed": Wanted(_program(
        "INTEGER A(9,9)", "SAVE A", "DO 10 I=2,9", "DO 10 J=1,I-1", "10 A(I,J)=A(J,I)",
    ), parallel=(1, 2), reverse=(1, 2), interchange=(1,)),
    "a symbol": Wanted(_program(
        "INTEGER A(20)", "SAVE A", "READ *,N", "DO 10 I=1,N", "10 A(I)=A(I+N)",
    ), parallel=(2,), reverse=(2,)),
    # A(I-1) is what the iteration before has written.
    "a symbol, and a recurrence": Wanted(_program(
        "INTEGER A(20)", "SAVE A", "READ *,N", "DO 10 I=2,N", "10 A(I)=A(I+N)+A(I-1)",
    )),
    # J' = I < I' <= J'.
    "interchanged": Wanted(_program(
        "INTEGER A(3)", "SAVE A", "DO 5 J=1,3", "5 A(J)=J", "DO 10 I=1,2", "DO 10 J=I,3", "10 A(J)=A(I)+1",
    ), interchange=(3,)),
    "backwards": Wanted(_program(
        "INTEGER A(9)", "SAVE A", "DO 10 K=1,8", "DO 20 I=9,K+1,-1", "20 A(I)=A(I)-A(K)", "10 CONTINUE",
    ), parallel=(2,), reverse=(2,)),
    # Fractions meet in one direction of the outer loop, which is disproved by cases; the other direction is real. In
    # one iteration of it the greatest I is 4, and 3*I+6 is neither 17 nor 7*J+3*J'.
    "by cases": Wanted(_program(
        "INTEGER A(-99:99)", "DO 10 I=1,4", "DO 10 J=1,5", "10 A(4*I+7*J)=A(7*I-3*J+6)",
    ), parallel=(2,), reverse=(2,)),
    "substitution": Wanted(_program(
        "INTEGER A(9,9),B(9)", "SAVE B", "READ *,N", "DO 10 J=1,N", "DO 10 I=J+1,N", "10 B(I)=B(I)-A(I,J)*B(J)",
    ), parallel=(3,), reverse=(3,), interchange=(2,)),
    "substitution from the end": Wanted(_program(
        "INTEGER A(9,9),B(9)", "SAVE B", "READ *,N", "DO 10 J=N,1,-1", "DO 10 I=1,J-1", "10 B(I)=B(I)-A(I,J)*B(J)",
    ), parallel=(3,), reverse=(3,)),
    # Blocks of four: a later block begins at least four further on.
    "strips": Wanted(_program(
        "INTEGER A(40)", "SAVE A", "READ *,N", "DO 10 K=1,N,4", "DO 10 I=K,MIN(K+3,N)", "10 A(I)=A(I)*2",
    ), parallel=(2,)),
    # 2*I = 2*I'+3.
    "sums and differences": Wanted(_program(
        "INTEGER A(-20:20,-20:20)", "SAVE A", "DO 10 I=1,8", "DO 10 J=1,8", "10 A(I+J,I-J)=A(I+J,I-J+3)",
    ), parallel=(1,), reverse=(1,), interchange=(1,)),
    "halves": Wanted(_program(
        "INTEGER A(40)", "SAVE A", "READ *,N", "DO 10 I=1,N", "A(I)=A(I)+A(I+N)", "10 A(I+N)=A(I)-A(I+N)",
    ), parallel=(2,), reverse=(2,)),
    # M may be greater than N.
    "two symbols": Wanted(_program(
        "INTEGER A(40)", "SAVE A", "READ *,N,M", "DO 10 I=1,M", "10 A(I)=A(I+N)",
    )),
    # MIN(N,M) is at most N.
    "the lesser of two symbols": Wanted(_program(
        "INTEGER A(40)", "SAVE A", "READ *,N,M", "DO 10 I=1,MIN(N,M)", "10 A(I)=A(I+N)",
    ), parallel=(2,), reverse=(2,)),
    "a band": Wanted(_program(
        "INTEGER A(9,9)", "SAVE A", "DO 10 I=1,9", "DO 10 J=MAX(1,I-2),I-1", "10 A(I,J)=A(J,I)",
    ), parallel=(1, 2), reverse=(1, 2)),
    "odd and even": Wanted(_program(
        "INTEGER A(20)", "SAVE A", "DO 10 K=1,2", "DO 10 I=K,18,2", "10 A(I)=A(I+1)",
    ), parallel=(2,)),
    "a wave": Wanted(_program(
        "INTEGER A(9,9)", "SAVE A", "READ *,N", "DO 10 I=2,N", "DO 10 J=2,N", "10 A(I,J)=A(I-1,J)+A(I,J-1)",
    )),
    # Nothing is known of L(I).
    "scattered": Wanted(_program(
        "INTEGER A(9),L(9)", "SAVE A", "DO 10 I=1,9", "10 A(L(I))=I",
    )),
    "what no step reaches": Wanted(_program(
        "INTEGER A(9)", "SAVE A", "DO 10 I=1,9", "K=A(I)", "10 A(I)=K+1",
    )),
    # The second half is read, the first written, and the outer index says which row.
    "rows of halves": Wanted(_program(
        "INTEGER A(40,9)", "SAVE A", "READ *,N", "DO 10 J=1,9", "DO 10 I=1,N", "10 A(I,J)=A(I+N,10-J)",
    ), parallel=(2, 3), reverse=(2, 3), interchange=(2,)),
}


def names() -> List[str]:
    """The names of the programs."""
    return list(PROGRAMS)
