"""Kinds of statements by their first words, in both forms."""

import unittest
from typing import Dict, Tuple

from ..real.convert import READERS
from ..real.declarations import READERS as DECLARATION_READERS
from ..real.keywords import keyword_of, letters_of

#: Texts by the kind that they are in both forms.
KINDS: Dict[str, Tuple[str, ...]] = {
    "=": ("A(I) = 1", "A%B(1)%C = 2", "IF (A) = 2", "DOT = 1",),
    "=>": ("A => B",),
    "IF": ("IF (A == 2) B = 3",),
    "IF THEN": ("IF (A) THEN",),
    "ARITHMETIC IF": ("IF (A-1) 10,20,30",),
    "DO": ("DO 10 I = 1, N", "DO I=1,N", "DO", "DO WHILE (A)", "DO 10 WHILE (A)", "DO CONCURRENT (I=1:N)",),
    "END": (
        "END", "END DO", "ENDDO", "END IF OUTER", "END SUBROUTINE FOO", "END BLOCK DATA", "END INTERFACE OPERATOR (+)",
        "END PROGRAM",
    ),
    "": ("END STRUCTURE", "END FOO", "MY_MACRO(X)", "FOO BAR",),
    "END FILE": ("ENDFILE 5", "END FILE (5)",),
    "ELSE": ("ELSE",),
    "ELSE IF": ("ELSE IF (A) THEN", "ELSEIF (A) THEN",),
    "ELSEWHERE": ("ELSE WHERE", "ELSEWHERE (M)",),
    "SELECT CASE": ("SELECT CASE (I)",),
    "SELECT TYPE": ("SELECT TYPE (A)",),
    "CASE": ("CASE (1)", "CASE DEFAULT",),
    "TYPE GUARD": ("TYPE IS (INTEGER)", "CLASS DEFAULT",),
    "WHERE": ("WHERE (A) B = 1", "WHERE (A)",),
    "FORALL": ("FORALL (I=1:N) A(I) = 1",),
    "CALL": ("CALL F", "CALL F(X)",),
    "CONTINUE": ("CONTINUE",),
    "GO TO": ("GO TO 10", "GOTO 10",),
    "COMPUTED GO TO": ("GO TO (10,20), I",),
    "ASSIGNED GO TO": ("GO TO L, (10,20)", "GO TO L",),
    "ASSIGN": ("ASSIGN 10 TO L",),
    "CYCLE": ("CYCLE", "EXIT OUTER",),
    "RETURN": ("RETURN", "RETURN 1",),
    "STOP": ("STOP", "STOP 'a'", "ERROR STOP",),
    "READ": ("READ (5,*) A", "READ *, A", "READ 10, A", "READ FMT, A",),
    "PRINT": ("PRINT *, 'A = B'", "PRINT FMT, X",),
    "WRITE": ("WRITE (6,10) A",),
    "REWIND": ("REWIND 5",),
    "FUNCTION": (
        "REAL FUNCTION F(X)", "REAL*8 FUNCTION F(X)", "REAL(KIND=8) FUNCTION F(X) RESULT(Y)",
        "DOUBLE PRECISION FUNCTION F(X)", "PURE RECURSIVE INTEGER FUNCTION F()", "FUNCTION F(A,B)",
        "CHARACTER*(*) FUNCTION F(X)", "CHARACTER(LEN=LEN(X)) FUNCTION F(X)", "TYPE(T) FUNCTION F(X)",
        "MODULE FUNCTION F(X)",
    ),
    "TYPE DECLARATION": (
        "REAL FUNCTIONS(10)", "TYPE(T) :: X", "TYPE(T), POINTER :: X => NULL()", "CLASS(*), INTENT(IN) :: X",
        "INTEGER A", "INTEGER, PARAMETER :: N = 10", "REAL*8 X(3)", "CHARACTER*(*) A", "DOUBLE PRECISION X",
    ),
    "SUBROUTINE": ("MODULE SUBROUTINE F(X)", "SUBROUTINE F", "PURE SUBROUTINE F(X, *)",),
    "MODULE PROCEDURE": ("MODULE PROCEDURE A, B",),
    "MODULE": ("MODULE M",),
    "SUBMODULE": ("SUBMODULE (A) B",),
    "PROGRAM": ("PROGRAM P",),
    "BLOCK DATA": ("BLOCK DATA",),
    "BLOCK": ("BLOCK",),
    "ENTRY": ("ENTRY E(X)",),
    "FORMAT": ("FORMAT (1X, 'A')",),
    "INTERFACE": ("INTERFACE", "INTERFACE F", "ABSTRACT INTERFACE",),
    "ENUM": ("ENUM, BIND(C)",),
    "ENUMERATOR": ("ENUMERATOR :: A = 1",),
    "PROCEDURE": ("PROCEDURE(F), POINTER :: P => NULL()", "PROCEDURE :: A => B", "GENERIC :: A => B",),
    "DERIVED TYPE": ("TYPE T", "TYPE :: T", "TYPE, EXTENDS(A) :: T",),
    "IMPLICIT": ("IMPLICIT NONE",),
    "PARAMETER": ("PARAMETER (N=1)",),
    "COMMON": ("COMMON /A/ X", "COMMON X",),
    "EQUIVALENCE": ("EQUIVALENCE (A,B)",),
    "DATA": ("DATA X /1/", "DATA (A(I),I=1,3) /3*1/",),
    "NAMELIST": ("NAMELIST /A/ X",),
    "USE": ("USE M", "USE M, ONLY: A => B", "USE, INTRINSIC :: M",),
    "IMPORT": ("IMPORT",),
    "ATTRIBUTE": (
        "DIMENSION A(10)", "SAVE", "SAVE A, /B/", "INTENT(IN) :: A", "EXTERNAL F", "POINTER A", "PRIVATE",
        "PUBLIC :: OPERATOR(+)",
    ),
    "CRAY POINTER": ("POINTER (P, A)",),
    "ALLOCATE": ("ALLOCATE (A(N))",),
    "NULLIFY": ("NULLIFY (A)",),
    "OPEN": ("OPEN (UNIT=1)",),
    "CLOSE": ("CLOSE (1)",),
    "SEQUENCE": ("SEQUENCE",),
    "CONTAINS": ("CONTAINS",),
    "ASSOCIATE": ("ASSOCIATE (A => B)",),
}


def kind(text: str, form: str) -> str:
    """The kind of a statement."""
    return keyword_of(letters_of(text, form), form)


class Kinds(unittest.TestCase):
    def test_both_forms(self) -> None:
        for wanted, texts in KINDS.items():
            for text in texts:
                for written in (text, text.lower()):
                    for form in ("free", "fixed"):
                        self.assertEqual(kind(written, form), wanted, f"{written} ({form})")

    def test_fixed_form_without_blanks(self) -> None:
        for text, wanted in (("DO10I=1,N", "DO"), ("DO10I=1.5", "="), ("DO10I=F(1,2)", "="), ("GOTO10", "GO TO"),
                             ("CALLF(X)", "CALL"), ("ENDDO", "END"), ("REALX(10)", "TYPE DECLARATION"),
                             ("REALFUNCTIONF(X)", "FUNCTION"), ("IF(X.GT.1)X=1", "IF")):
            self.assertEqual(kind(text, "fixed"), wanted, text)

    def test_blanks_end_words_in_free_form(self) -> None:
        for text in ("CALLF(X)", "REALFUNCTIONF", "DOI", "MODULEPROCEDURES A"):
            self.assertNotIn(kind(text, "free"), ("CALL", "FUNCTION", "DO", "MODULE PROCEDURE"), text)
        self.assertEqual(kind("module procedures", "free"), "MODULE")

    def test_names_of_assignments(self) -> None:
        for text in ("DO = 1", "IF = 1", "END = 1", "CALL(I) = 2", "REAL%X = 3", "DATA(1)%Y(2) = 4", "ELSEIF(A) = 5"):
            for form in ("free", "fixed"):
                self.assertEqual(kind(text, form), "=", text)

    def test_equals_signs_that_assign_nothing(self) -> None:
        for text in ("CALL F(A=1)", "IF (A == B) THEN", "PRINT *, A == B", "PARAMETER (A=1)", "OPEN (UNIT=1)",
                     "WHERE (A == B) C = D", "INTEGER :: A = 1"):
            self.assertNotIn(kind(text, "free"), ("=", "=>"), text)

    def test_there_is_one_reader_for_each_kind(self) -> None:
        self.assertLessEqual(set(KINDS) - {""}, READERS.keys() | DECLARATION_READERS.keys())
        self.assertFalse(READERS.keys() & DECLARATION_READERS.keys())
