"""Statements of real files as trees: each construct, the faults of the library, and what can't be read."""

import unittest
from typing import Iterator, Tuple
from unittest import mock

from ..real import tree
from ..real.convert import statement_of
from ..real.expressions import NotRead, read_expression
from ..real.items import Item
from ..real.keywords import keyword_of, letters_of, words_of
from ..real.library import statement_classes
from ..real.tree import Keyword, Literal, Name, Operation, Reference, Section

FORMS = ("fixed", "free")


def statement(text: str, form: str = "fixed") -> tree.Statement:
    """What a statement says."""
    return statement_of(Item(1, 1, None, "", text), keyword_of(letters_of(text, form), form), form)


def number(value: int) -> Literal:
    """An INTEGER literal."""
    return Literal("INTEGER", str(value))


A, B, C, I, J, N, X = map(Name, "ABCIJNX")


def plus(left: tree.Expression, right: tree.Expression) -> Operation:
    """A sum."""
    return Operation("+", (left, right))


class Expressions(unittest.TestCase):
    def assertRead(self, text: str, wanted: tree.Expression) -> None:
        self.assertEqual(read_expression(text), wanted, text)

    def test_grouping(self) -> None:
        self.assertRead("A-B-C", Operation("-", (Operation("-", (A, B)), C)))
        self.assertRead("A-B+C", plus(Operation("-", (A, B)), C))
        self.assertRead("A/B*C", Operation("*", (Operation("/", (A, B)), C)))
        self.assertRead("A**B**C", Operation("**", (A, Operation("**", (B, C)))))
        self.assertRead("-A+B", plus(Operation("-", (A,)), B))
        self.assertRead("-A**2", Operation("-", (Operation("**", (A, number(2))),)))
        self.assertRead("-A*B", Operation("-", (Operation("*", (A, B)),)))
        self.assertRead("A*B-C", Operation("-", (Operation("*", (A, B)), C)))
        self.assertRead("A.OR.B.AND.C", Operation(".OR.", (A, Operation(".AND.", (B, C)))))
        self.assertRead(".NOT.A.AND.B", Operation(".AND.", (Operation(".NOT.", (A,)), B)))
        self.assertRead("A.LT.B.EQV.C", Operation(".EQV.", (Operation(".LT.", (A, B)), C)))
        self.assertRead("A//B//C", Operation("//", (Operation("//", (A, B)), C)))
        self.assertRead("A-(B-C)", Operation("-", (A, tree.Parentheses(Operation("-", (B, C))))))

    def test_relations_in_both_forms(self) -> None:
        for written, operator in (("==", ".EQ."), ("/=", ".NE."), ("<", ".LT."), ("<=", ".LE."), (">", ".GT."),
                                  (">=", ".GE.")):
            self.assertRead(f"A{written}B", Operation(operator, (A, B)))
            self.assertRead(f"A {operator.lower()} B", Operation(operator, (A, B)))

    def test_literals(self) -> None:
        self.assertRead("1_8", Literal("INTEGER", "1", "8"))
        self.assertRead("1.5d0", Literal("REAL", "1.5D0"))
        self.assertRead("1.e-3_dp", Literal("REAL", "1.E-3", "DP"))
        self.assertRead(".true.", Literal("LOGICAL", ".TRUE."))
        self.assertRead("'it''s'", Literal("CHARACTER", "'it''s'"))
        self.assertRead("Z'ff'", Literal("BOZ", "Z'FF'"))
        self.assertRead("(1.0,-2.0)", tree.ComplexLiteral(
            Literal("REAL", "1.0"), Operation("-", (Literal("REAL", "2.0"),)),
        ))

    def test_numbers_beside_operators(self) -> None:
        self.assertRead("1.EQ.I", Operation(".EQ.", (number(1), I)))
        self.assertRead("X.LT.1..OR.A", Operation(".OR.", (Operation(".LT.", (X, Literal("REAL", "1."))), A)))
        self.assertRead("A1D0+1D0", plus(Name("A1D0"), Literal("REAL", "1D0")))

    def test_intrinsics_name_that_is_an_array(self) -> None:
        # The library takes it for the function INDEX, and fails at its single argument.
        self.assertRead("INDEX(I)", Reference(Name("INDEX"), (I,)))
        self.assertRead("SUM(I,J,N)", Reference(Name("SUM"), (I, J, N)))
        self.assertEqual(statement("INDEX(I) = MAX(I)"), tree.Assignment(
            Reference(Name("INDEX"), (I,)), Reference(Name("MAX"), (I,)),
        ))

    def test_references_without_arguments_and_with_keywords(self) -> None:
        self.assertRead("F()", Reference(Name("F"), ()))
        self.assertRead("F(A=1)", Reference(Name("F"), (Keyword("A", number(1)),)))
        self.assertRead("F(B,A=1)", Reference(Name("F"), (B, Keyword("A", number(1)))))

    def test_sections(self) -> None:
        self.assertRead("A(:,1)", Reference(A, (Section(None, None), number(1))))
        self.assertRead("A(I:N:2)", Reference(A, (Section(I, N, number(2)),)))
        self.assertRead("A(::2)", Reference(A, (Section(None, None, number(2)),)))
        self.assertRead("A(I)(1:2)", Reference(Reference(A, (I,)), (Section(number(1), number(2)),)))

    def test_components(self) -> None:
        inner = tree.Component(Reference(A, (I,)), "X")
        self.assertRead("a(i)%x(j)%y", tree.Component(Reference(inner, (J,)), "Y"))
        self.assertRead("a%x", tree.Component(A, "X"))
        self.assertRead("a(i) % x (j:n)", Reference(inner, (Section(J, N),)))
        self.assertRead("a%f()", Reference(tree.Component(A, "F"), ()))
        self.assertEqual(tree.root_of(read_expression("a(i)%x(j)%y")), "A")

    def test_constructors(self) -> None:
        implied = tree.ImpliedDo((Reference(A, (I,)),), "I", number(1), N)
        self.assertRead("[B,(A(I),I=1,N)]", tree.ArrayConstructor(None, (B, implied)))
        self.assertRead("(/ A, B /)", tree.ArrayConstructor(None, (A, B)))
        self.assertRead("[real(8) :: a]", tree.ArrayConstructor(tree.TypeSpec("REAL", kind=number(8)), (A,)))

    def test_operators_of_users(self) -> None:
        read = read_expression("A.CROSS.B")
        assert isinstance(read, Operation)
        self.assertEqual((read.operator, read.is_defined), (".CROSS.", True))

    def test_backslash(self) -> None:
        self.assertRead(r"F('\',A)", Reference(Name("F"), (Literal("CHARACTER", r"'\'"), A)))

    def test_text(self) -> None:
        for text in ("A(I,J+1)*2-B%C(3:N)**2", "MAX(A,-B)//'x y'", "(1.0,2.0)", "[1,(I,I=1,N,2)]", ".NOT.(A.EQ.B)",
                     "F(X=1)", "2_8+KIND(1D0)"):
            self.assertEqual(str(read_expression(text)), text)

    def test_names(self) -> None:
        read = read_expression("A(I)%X(J) + F(K=N) + [(B, L=1,M)] + 1_Q")
        self.assertEqual(list(tree.names_in(read)), ["A", "I", "J", "F", "N", "L", "B", "M"])

    def test_what_cannot_be_read(self) -> None:
        for text in ("A*-B", "A B", "", "A(", "5HHELLO", "A[2]", "%VAL(X)", "A+"):
            with self.assertRaises(NotRead, msg=text):
                read_expression(text)


class Executable(unittest.TestCase):
    def assertSays(self, text: str, wanted: tree.Statement) -> None:
        for form in FORMS:
            self.assertEqual(statement(text, form), wanted, f"{text} ({form})")

    def test_assignments(self) -> None:
        self.assertSays("A(I) = B", tree.Assignment(Reference(A, (I,)), B))
        self.assertSays("A%X = B", tree.Assignment(tree.Component(A, "X"), B))
        self.assertSays("P => A", tree.PointerAssignment(Name("P"), A))
        self.assertSays("P(1:) => A", tree.PointerAssignment(Reference(Name("P"), (Section(number(1), None),)), A))

    def test_keywords_as_names(self) -> None:
        self.assertSays("IF (I) = J", tree.Assignment(Reference(Name("IF"), (I,)), J))
        self.assertSays("DO = I", tree.Assignment(Name("DO"), I))
        self.assertSays("END = I", tree.Assignment(Name("END"), I))
        self.assertSays("REAL(I) = J", tree.Assignment(Reference(Name("REAL"), (I,)), J))
        self.assertSays("DATA%X = J", tree.Assignment(tree.Component(Name("DATA"), "X"), J))

    def test_blanks_mean_nothing_in_fixed_form(self) -> None:
        counted = tree.Counted(I, number(1), N)
        self.assertEqual(statement("DO10I=1,N"), tree.Do(10, counted))
        self.assertEqual(statement("D O 1 0 I = 1 , N"), tree.Do(10, counted))
        self.assertEqual(statement("DO10I=1.5"), tree.Assignment(Name("DO10I"), Literal("REAL", "1.5")))
        self.assertEqual(statement("GOTO10"), tree.GoTo(10))
        self.assertEqual(statement("IF(I.EQ.J)GO TO 1 0"), tree.LogicalIf(Operation(".EQ.", (I, J)), tree.GoTo(10)))
        self.assertEqual(statement("CALLF(X)"), tree.Call(Name("F"), (X,)))
        self.assertEqual(statement("A B = X Y"), tree.Assignment(Name("AB"), Name("XY")))
        self.assertIsInstance(statement("A B = X Y", "free"), tree.Unreadable)

    def test_ifs(self) -> None:
        equal = Operation(".EQ.", (I, J))
        self.assertSays("IF (I.EQ.J) A = B", tree.LogicalIf(equal, tree.Assignment(A, B)))
        self.assertSays("IF (I == J) THEN", tree.IfThen(equal))
        self.assertSays("ELSE IF (I == J) THEN", tree.ElseIf(equal))
        self.assertSays("ELSE", tree.Else())
        self.assertSays("IF (I-J) 10, 20, 30", tree.ArithmeticIf(Operation("-", (I, J)), (10, 20, 30)))
        self.assertSays("IF (A(I)) CYCLE", tree.LogicalIf(Reference(A, (I,)), tree.Cycle()))

    def test_dos(self) -> None:
        self.assertSays("DO 10, I = N, 1, -1", tree.Do(10, tree.Counted(I, N, number(1), Operation("-", (number(1),)))))
        function = Reference(Name("F"), (number(1), number(2)))
        self.assertSays("DO I = F(1,2), N", tree.Do(None, tree.Counted(I, function, N)))
        self.assertSays("DO WHILE (A .LT. B)", tree.Do(None, tree.While(Operation(".LT.", (A, B)))))
        self.assertSays("DO", tree.Do(None, None))
        concurrent = tree.Concurrent((tree.Range("I", number(1), N), tree.Range("J", I, N, number(2))), A)
        self.assertSays("DO CONCURRENT (I=1:N, J=I:N:2, A)", tree.Do(None, concurrent))
        self.assertIsInstance(statement("DO CONCURRENT (I=1:N) LOCAL(X)", "free"), tree.Unreadable)

    def test_blocks(self) -> None:
        self.assertSays("SELECT CASE (I)", tree.SelectCase(I))
        self.assertSays("CASE (1, 3:5, :0)", tree.Case(
            (number(1), Section(number(3), number(5)), Section(None, number(0))),
        ))
        self.assertSays("CASE DEFAULT", tree.Case(None))
        self.assertSays("SELECT TYPE (A => B)", tree.SelectType("A", B))
        self.assertSays("CLASS DEFAULT", tree.TypeGuard("CLASSDEFAULT"))
        self.assertSays("WHERE (A) B = C", tree.Where(A, tree.Assignment(B, C)))
        self.assertSays("WHERE (A)", tree.Where(A))
        self.assertSays("ELSEWHERE (A)", tree.ElseWhere(A))
        self.assertSays("ELSE WHERE", tree.ElseWhere(None))
        ranges = (tree.Range("I", number(1), N),)
        self.assertSays("FORALL (I=1:N, A) B = C", tree.Forall(ranges, A, tree.Assignment(B, C)))
        self.assertSays("ASSOCIATE (A => B(I))", tree.Construct("ASSOCIATE", (("A", Reference(B, (I,))),)))
        self.assertSays("BLOCK", tree.Construct("BLOCK"))
        self.assertSays("END DO", tree.End("DO"))
        self.assertSays("ENDIF", tree.End("IF"))
        self.assertSays("END SUBROUTINE WORK", tree.End("SUBROUTINE", "WORK"))

    def test_jumps(self) -> None:
        self.assertSays("GO TO 10", tree.GoTo(10))
        self.assertSays("GO TO (10, 20), I", tree.ComputedGoTo((10, 20), I))
        self.assertSays("GO TO (10, 20) I", tree.ComputedGoTo((10, 20), I))
        self.assertSays("GO TO I, (10, 20)", tree.AssignedGoTo("I", (10, 20)))
        self.assertSays("ASSIGN 10 TO I", tree.AssignLabel(10, "I"))
        self.assertSays("EXIT OUTER", tree.Exit("OUTER"))
        self.assertSays("RETURN", tree.Return())
        self.assertSays("RETURN 1", tree.Return(number(1)))
        self.assertSays("ERROR STOP 2", tree.Stop("ERROR STOP", number(2)))
        self.assertSays("STOP", tree.Stop("STOP"))

    def test_calls(self) -> None:
        self.assertSays("CALL F", tree.Call(Name("F")))
        self.assertSays("CALL F()", tree.Call(Name("F")))
        self.assertSays("CALL F(A, *10, B=C)", tree.Call(Name("F"), (A, tree.AlternateReturn(10), Keyword("B", C))))
        self.assertSays("CALL A%X(B)", tree.Call(tree.Component(A, "X"), (B,)))

    def test_storage(self) -> None:
        self.assertSays("ALLOCATE (A(N), B(0:N), STAT=I)", tree.Allocation("ALLOCATE", (
            Reference(A, (N,)), Reference(B, (Section(number(0), N),)),
        ), (Keyword("STAT", I),)))
        self.assertSays("DEALLOCATE (A)", tree.Allocation("DEALLOCATE", (A,)))
        self.assertSays("NULLIFY (A, B)", tree.Allocation("NULLIFY", (A, B)))

    def test_input_and_output(self) -> None:
        item = tree.ImpliedDo((Reference(A, (I,)),), "I", number(1), N)
        self.assertSays("READ (5, *, END=10) X, (A(I), I=1,N)", tree.InputOutput(
            "READ", (number(5), tree.Star(), Keyword("END", number(10))), (X, item),
        ))
        self.assertSays("READ *, X", tree.InputOutput("READ", (tree.Star(),), (X,)))
        self.assertSays("READ N, X", tree.InputOutput("READ", (N,), (X,)))
        constant = Literal("CHARACTER", "'A = B'")
        self.assertSays("PRINT *, 'A = B'", tree.InputOutput("PRINT", (tree.Star(),), (constant,)))
        self.assertSays("WRITE (UNIT=6) X", tree.InputOutput("WRITE", (Keyword("UNIT", number(6)),), (X,)))
        self.assertSays("END FILE 5", tree.InputOutput("END FILE", (number(5),)))
        self.assertSays("INQUIRE (IOLENGTH=N) A", tree.InputOutput("INQUIRE", (Keyword("IOLENGTH", N),), (A,)))
        read = statement("READ (5, 20, ERR=30, END=40) X")
        assert isinstance(read, tree.InputOutput)
        self.assertEqual(read.jumps, (30, 40))

    def test_expressions_of_statements(self) -> None:
        self.assertEqual(statement("IF (A) B = C").expressions(), (A, B, C))
        self.assertEqual(statement("DO 10 I = 1, N").expressions(), (I, number(1), N))


class Unreadable(unittest.TestCase):
    def test_unreadable_statements(self) -> None:
        for text in ("MY_MACRO(X)", "A = B C(", "CALL F(5HHELLO)", "A = %LOC(B)", "IF (A THEN", "DO 10 I = 1"):
            read = statement(text, "free")
            assert isinstance(read, tree.Unreadable), text
            self.assertEqual((read.text, read.reason), (text, "parse"))
            self.assertTrue(read.words)

    def test_macros_that_begin_as_keywords_do(self) -> None:
        for text in (
            "DATABASE(X)", "DATA_OF(X)", "DATA (X)", "SAVE_STATE(X)", "COMMONS(Y)", "IMPORTANT(X)", "IMPORTANT",
            "RETURN_IF(X)", "FORMATTED(X)", "REALLOCATE(X, 5)", "CALLX(Y)", "ENDIT(X)", "ENDIT", "IFX(Y)", "STOP_IF(X)",
            "STOPPED", "ENUMERATORS", "PRIVATELY", "CONTINUED",
        ):
            self.assertIsInstance(statement(text, "free"), tree.Unreadable, text)

    def test_library_that_reads_something_else(self) -> None:
        with mock.patch.object(statement_classes().standard.Name, "tostr", lambda self: "Z"):
            with self.assertRaises(NotRead):
                read_expression("A+B")
        for changed in ("A", "A + B + C", ""):
            with mock.patch.object(statement_classes().standard.Level_2_Expr, "tostr", lambda self: changed):
                self.assertIsInstance(statement("X = A + B"), tree.Unreadable, changed)

    def test_library_that_raises_anything(self) -> None:
        for raised in (KeyError("x"), AssertionError(), RecursionError(), ValueError("y")):
            match = mock.Mock(side_effect=raised)
            with mock.patch.object(statement_classes().standard.Assignment_Stmt, "match", match):
                self.assertIsInstance(statement("X = A + B"), tree.Unreadable)

    def test_library_that_answers_none(self) -> None:
        with mock.patch.object(statement_classes().standard.Call_Stmt, "__new__", lambda *_: None):
            self.assertIsInstance(statement("CALL F"), tree.Unreadable)
        self.assertEqual(statement("CALL F"), tree.Call(Name("F")))

    def test_objects_of_other_images(self) -> None:
        for text in ("A[2] = B", "A = B(I)[J]", "REAL A[*]"):
            read = statement(text, "free")
            assert isinstance(read, tree.Unreadable), text
            self.assertEqual(read.reason, "coarray")

    def test_array_constructor_is_no_image(self) -> None:
        read = statement("A = [B, C", "free")
        assert isinstance(read, tree.Unreadable)
        self.assertEqual(read.reason, "parse")

    def test_item_with_a_fault(self) -> None:
        read = statement_of(Item(1, 1, None, "", "D     A = 1", fault="why"), "=", "fixed")
        self.assertEqual(read, tree.Unreadable("D     A = 1", "why"))

    def test_action_of_an_if(self) -> None:
        self.assertIsInstance(statement("IF (A) FOO BAR", "free"), tree.Unreadable)


class Words(unittest.TestCase):
    def test_words(self) -> None:
        self.assertEqual(words_of("A = B(I) // 'C D'"), {"A", "B", "I"})
        self.assertLessEqual({"X", "Y"}, words_of("print *, x%y"))

    def test_blanks_in_names(self) -> None:
        self.assertIn("AB", words_of("A B = 1"))

    def test_quote_in_a_hollerith_constant(self) -> None:
        self.assertIn("Y", words_of("DATA X /3HI'M/, Y /4/"))


class RoundTrip(unittest.TestCase):
    """What is read is all that is written: the text of a tree is that of its statement."""

    TEXTS = (
        "A(I,J) = B(I-1,J)*C - D/(E+F(2*I+1))**2", "X = -Y + Z*(-1)", "L = A.GT.B.AND..NOT.(C.LE.D).OR.E.EQV.F",
        "S = 'it''s' // T(1:3) // \"x\"", "Z = (1.0,-2.5E3) * CMPLX(A,B)", "V(1:N:2) = [1,2,(K,K=1,N)]",
        "P%Q(I)%R = F() + G(X=1,Y=2)", "A = B(:,J) + C(J,:)", "K = IAND(K,Z'FF') + 3_8",
    )

    def test_assignments(self) -> None:
        for text in self.TEXTS:
            for form in FORMS:
                read = statement(text, form)
                assert isinstance(read, tree.Assignment), text
                self.assertEqual(f"{read.target}={read.value}", letters_of(text, "fixed").full)

    def test_loss_is_seen(self) -> None:
        for text, form in self.lossy():
            self.assertIsInstance(statement(text, form), tree.Unreadable, text)

    @staticmethod
    def lossy() -> Iterator[Tuple[str, str]]:
        """Statements that have more in them than a statement of their kind."""
        for text in ("IF (A) THEN B", "ELSE IF (A) B", "SELECT CASE (I) J", "DO WHILE (A) B", "A = B ; C"):
            yield text, "free"
