"""Flow graphs of real Fortran, and liveness: expected values follow from the standard's order of execution."""

import unittest
from typing import Dict, List, Optional

from ..real import tree
from ..real.flow import END, dominators, has_iteration, postdominators
from .real_programs import Program, program, subroutine


def edges(made: Program) -> Dict[str, List[str]]:
    """The edges of a unit by lines: `s3` is the step of the DO on line 3, `end` the end of the unit."""
    graph = made.facts.graph

    def word(node: int) -> str:
        if node == END:
            return "end"
        return f"{'s' if node < END else ''}{graph.statements[node].item.first}"

    return {word(node): [word(one) for one in nexts] for node, nexts in graph.successors.items()}


class Graphs(unittest.TestCase):
    def check(self, wanted: Dict[str, str], *lines: str) -> None:
        """Lines from 3 on, and where the run goes on after each."""
        self.assertEqual(
            {node: " ".join(nexts) for node, nexts in edges(subroutine(*lines)).items()}, wanted,
        )

    def test_if(self) -> None:
        self.check(
            {"3": "4 5", "4": "9", "5": "6 7", "6": "9", "7": "8", "8": "9", "9": "10", "10": "end"},
            "IF (X > 1) THEN", "Y = 1", "ELSE IF (X > 2) THEN", "Y = 2", "ELSE", "Y = 3", "END IF", "Z = 1",
        )

    def test_do(self) -> None:
        self.check({"3": "s3", "s3": "4 6", "4": "5", "5": "s3", "6": "end"}, "DO I = 1, N", "Y = 1", "END DO", "Z = 1")

    def test_labelled_do(self) -> None:
        """The last statement belongs to the iteration, and GO TO carries it out, but CYCLE doesn't."""
        self.check(
            {"3": "s3", "s3": "4 7", "4": "6 5", "5": "s3 6", "6": "s3", "7": "end"},
            "DO 10 I = 1, N", "IF (X > 1) GO TO 10", "IF (X > 2) CYCLE", "10 Y = 1", "Z = 1",
        )

    def test_shared_end(self) -> None:
        self.check(
            {"3": "s3", "s3": "4 6", "4": "s4", "s4": "5 s3", "5": "s4", "6": "end"},
            "DO 10 I = 1, N", "DO 10 J = 1, N", "10 A(J) = 1", "Z = 1",
        )

    def test_do_without_control(self) -> None:
        """Only EXIT leaves it."""
        wanted = {"3": "s3", "s3": "4", "4": "6 5", "5": "s3", "6": "end"}
        self.check(wanted, "DO", "IF (X > 1) EXIT", "END DO", "Z = 1")

    def test_named_constructs(self) -> None:
        self.check(
            {"3": "s3", "s3": "4 9", "4": "s4", "s4": "5 8", "5": "s3 6", "6": "9 7", "7": "s4", "8": "s3", "9": "end"},
            "OUTER: DO I = 1, N", "DO J = 1, N", "IF (A(J) > 1) CYCLE OUTER", "IF (A(J) > 2) EXIT OUTER", "END DO",
            "END DO OUTER", "Z = 1",
        )

    def test_exit_from_an_if(self) -> None:
        self.check(
            {"3": "4 6", "4": "7 5", "5": "6", "6": "7", "7": "end"},
            "TEST: IF (X > 1) THEN", "IF (X > 2) EXIT TEST", "Y = 1", "END IF TEST", "Z = 1",
        )

    def test_select(self) -> None:
        self.check(
            {"3": "4 6 8", "4": "5", "5": "8", "6": "7", "7": "8", "8": "9", "9": "end"},
            "SELECT CASE (K)", "CASE (1)", "Y = 1", "CASE (2:)", "Y = 2", "END SELECT", "Z = 1",
        )
        self.check(
            {"3": "4 6", "4": "5", "5": "7", "6": "7", "7": "end"},
            "SELECT CASE (K)", "CASE (1)", "Y = 1", "CASE DEFAULT", "END SELECT",
        )

    def test_jumps(self) -> None:
        """A computed GO TO goes on after it where its selector has no label; an arithmetic IF never does."""
        self.check(
            {"3": "5 6 4", "4": "7 6", "5": "7", "6": "7", "7": "end"},
            "GO TO (10, 20), K", "IF (X) 30, 20, 30", "10 GO TO 30", "20 Y = 1", "30 RETURN",
        )

    def test_assigned_go_to(self) -> None:
        made = subroutine("ASSIGN 10 TO K", "GO TO K", "10 X = 1", "20 Y = X")
        self.assertEqual(edges(made)["4"], ["5", "6"])
        self.assertTrue(made.facts.graph.is_open)
        made = subroutine("ASSIGN 10 TO K", "GO TO K, (10, 30)", "10 X = 1", "20 Y = X", "30 Z = Y")
        self.assertEqual(edges(made)["4"], ["5", "7"])
        self.assertFalse(made.facts.graph.is_open)

    def test_input_and_calls(self) -> None:
        self.check(
            {"3": "5 6 4", "4": "6 5", "5": "6", "6": "end"},
            "READ (5, *, ERR=10, END=20) X", "CALL P(*20)", "10 Y = 1", "20 CONTINUE",
        )

    def test_stop_and_return(self) -> None:
        self.check({"3": "end 4", "4": "5", "5": "end"}, "IF (X > 1) RETURN", "PAUSE", "STOP")

    def test_unreadable_statement(self) -> None:
        """It may be any jump."""
        self.assertEqual(edges(subroutine("X = (((", "Y = 1", "10 CONTINUE"))["3"], ["5", "end", "4"])

    def test_where_and_forall(self) -> None:
        self.check(
            {"3": "4", "4": "5", "5": "6", "6": "7", "7": "8", "8": "end"},
            "WHERE (A > 1)", "A = 1", "ELSEWHERE", "A = 2", "END WHERE", "Z = 1",
        )


class Dominators(unittest.TestCase):
    #: 1 chooses between 2 and 3, which meet in 4; 4 goes back to 1 or on to 5.
    GRAPH = {1: (2, 3), 2: (4,), 3: (4,), 4: (1, 5), 5: (END,)}

    def test_dominators(self) -> None:
        self.assertEqual(dominators(1, self.GRAPH), {1: 1, 2: 1, 3: 1, 4: 1, 5: 4, END: 5})

    def test_postdominators(self) -> None:
        self.assertEqual(postdominators(self.GRAPH), {END: END, 5: END, 4: 5, 3: 4, 2: 4, 1: 4})

    def test_node_that_is_not_reached(self) -> None:
        self.assertEqual(dominators(1, {1: (3,), 2: (3,), 3: (END,)}), {1: 1, 3: 1, END: 3})


class Faults(unittest.TestCase):
    """Jumps that refuse a loop."""

    def test_jumps_out(self) -> None:
        for statement in ("EXIT", "RETURN", "STOP", "GO TO 20", "IF (X > 1) GO TO 20", "IF (X) 10, 10, 20"):
            made = subroutine("DO 10 I = 1, N", statement, "10 CONTINUE", "20 CONTINUE")
            self.assertEqual(made.faults(), [("exit", 4)], statement)

    def test_jumps_to_the_end_of_an_iteration(self) -> None:
        for statement in ("CYCLE", "GO TO 10", "IF (X > 1) CYCLE", "IF (X) 10, 10, 10", "GO TO (10, 10), K"):
            self.assertEqual(subroutine("DO 10 I = 1, N", statement, "10 CONTINUE").faults(), [])
            self.assertEqual(subroutine("DO 10 I = 1, N", statement, "X = 1", "10 END DO").faults(), [])

    def test_backward(self) -> None:
        self.assertEqual(subroutine("DO I = 1, N", "10 X = 1", "GO TO 10", "END DO").faults(), [("goto", 5)])

    def test_inner_loops(self) -> None:
        """EXIT from an inner DO is no fault of the outer one; a jump into an inner DO is."""
        made = subroutine("DO I = 1, N", "DO J = 1, N", "IF (X > 1) EXIT", "END DO", "END DO")
        self.assertEqual((made.faults(0), made.faults(1)), ([], [("exit", 5)]))
        made = subroutine("DO I = 1, N", "GO TO 10", "DO J = 1, N", "10 X = 1", "END DO", "END DO")
        self.assertEqual((made.faults(0), made.faults(1)), ([("goto", 4)], [("goto", 4)]))

    def test_jump_out_of_an_inner_loop(self) -> None:
        made = subroutine("DO I = 1, N", "DO J = 1, N", "IF (X > 1) GO TO 10", "END DO", "Y = 1", "10 Z = 1", "END DO")
        self.assertEqual((made.faults(0), made.faults(1)), ([], [("exit", 5)]))

    def test_named(self) -> None:
        lines = "O: DO I = 1, N", "DO J = 1, N", "IF (X > 1) CYCLE O", "IF (X > 2) EXIT O", "END DO", "END DO O"
        made = subroutine(*lines)
        self.assertEqual((made.faults(0), made.faults(1)), ([("exit", 6)], [("exit", 5), ("exit", 6)]))

    def test_shared_end(self) -> None:
        """A jump to the shared last statement from outside the inner DO is a jump into it."""
        made = subroutine("DO 10 I = 1, N", "IF (X > 1) GO TO 10", "DO 10 J = 1, N", "10 X = 1")
        self.assertEqual((made.faults(0), made.faults(1)), ([("goto", 4)], [("goto", 4)]))

    def test_jumps_into_the_loop(self) -> None:
        made = subroutine("IF (X > 1) GO TO 10", "DO I = 1, N", "10 X = 1", "END DO")
        self.assertEqual(made.faults(), [("goto", 3)])
        made = subroutine("ASSIGN 10 TO K", "DO I = 1, N", "10 X = 1", "END DO", "GO TO K")
        self.assertEqual(made.faults(), [("goto", 3)])
        made = subroutine("READ (5, *, END=10) X", "DO I = 1, N", "10 X = 1", "END DO")
        self.assertEqual(made.faults(), [("goto", 3)])


class Live(unittest.TestCase):
    """Which scalars are wanted after a DO. In a main program nothing but a read is a reason."""

    def check(
        self, name: str, is_live: bool, *lines: str, index: int = 0, declarations: str = "REAL A(9), B(9)"
    ) -> None:
        made = program("PROGRAM P", declarations, *lines, "END")
        self.assertEqual(name in made.live_after(index), is_live, lines)

    def test_reads(self) -> None:
        loop = ("DO I = 1, N", "S = A(I)", "END DO")
        self.check("S", False, *loop)
        self.check("S", True, *loop, "X = S")
        self.check("S", True, *loop, "PRINT *, S")
        self.check("S", False, *loop, "S = 1", "X = S")
        self.check("S", False, *loop, "PRINT *, 'S'")
        self.check("S", True, *loop, "IF (X > 1) S = 1", "X = S")
        self.check("S", True, *loop, "IF (X > 1) THEN", "S = 1", "END IF", "X = S")
        self.check("S", False, *loop, "IF (X > 1) THEN", "S = 1", "ELSE", "S = 2", "END IF", "X = S")
        self.check("S", True, *loop, "DO J = 1, N", "S = A(J)", "END DO", "X = S")
        self.check("S", True, *loop, "READ *, S", "X = S")
        self.check("S", True, *loop, "A(INT(S)) = 1")
        self.check("S", True, *loop, "X = (((S")

    def test_jumps(self) -> None:
        loop = ("DO I = 1, N", "S = A(I)", "END DO")
        self.check("S", True, "GO TO 20", "10 X = S", "STOP", "20 CONTINUE", *loop, "GO TO 10")
        self.check("S", False, "GO TO 20", "10 X = S", "STOP", "20 CONTINUE", *loop, "S = 1", "GO TO 10")

    def test_outer_loop(self) -> None:
        """What the next iteration of an outer DO reads is wanted."""
        self.check("S", True, "DO K = 1, N", "X = S", "DO I = 1, N", "S = A(I)", "END DO", "END DO", index=1)
        self.check("S", False, "DO K = 1, N", "S = 0", "X = S", "DO I = 1, N", "S = A(I)", "END DO", "END DO", index=1)
        self.check("S", True, "DO K = 1, N", "DO I = 1, N", "X = S", "S = A(I)", "END DO", "END DO", index=1)

    def test_variable_of_a_loop(self) -> None:
        """It has a value after its DO. A DO that has it once more assigns it, without reading it."""
        self.check("I", False, "DO I = 1, N", "A(I) = 1", "END DO")
        self.check("I", True, "DO I = 1, N", "A(I) = 1", "END DO", "X = I")
        self.check("I", False, "DO I = 1, N", "A(I) = 1", "END DO", "DO I = 1, N", "B(I) = 1", "END DO", "X = I")
        self.check("I", True, "DO I = 1, N", "A(I) = 1", "END DO", "DO J = I, N", "B(J) = 1", "END DO")

    def test_variable_of_an_inner_loop_read_after_it(self) -> None:
        """`B(I-J+5)` after the DO of J reads J's last value, in this iteration of I or in the next one."""
        inner = ("DO J = 1, N", "A(J) = 1", "END DO")
        self.check("J", True, "DO I = 1, N", *inner, "B(I-J+5) = 1", "END DO", index=1)
        self.check("J", True, "DO I = 1, N", "B(I-J+5) = 1", *inner, "END DO", index=1)
        self.check("J", True, "DO I = 1, N", *inner, "END DO", "X = J", index=1)
        self.check("J", False, "DO I = 1, N", *inner, "J = 1", "B(I-J+5) = 1", "END DO", index=1)
        self.check("J", True, "DO I = 1, N", "DO J = 1, N", "IF (A(J) > 1) GO TO 10", "END DO", "J = 1", "10 B(J) = 1",
                   "END DO", index=1)

    def test_loop_without_iterations(self) -> None:
        """A value from before a DO is wanted after it, since the DO may have no iteration."""
        made = program("PROGRAM P", "REAL A(9)", "S = 1", "DO I = 1, N", "S = A(I)", "END DO", "X = S", "END")
        self.assertIn("S", made.facts.liveness.live_before(made.loops[0]))
        self.assertIn("S", made.live_after())

    def test_calls(self) -> None:
        """A procedure reads variables of COMMON and of modules, and a contained one those of its host."""
        loop = ("DO I = 1, N", "S = A(I)", "END DO")
        self.check("S", False, *loop, "CALL Q(X)")
        self.check("S", True, *loop, "CALL Q(S)")
        for statement in ("X = F(1)", "PRINT *, F(1)", "WRITE (6, *) F(1)", "CALL Q"):
            self.check("S", True, *loop, statement, "S = 0", declarations="COMMON /C/ S\nREAL A(9)")
            self.check("S", False, *loop, "S = 0", statement, declarations="COMMON /C/ S\nREAL A(9)")

    def test_host(self) -> None:
        lines = (
            "DO I = 1, 9", "S = A(I)", "END DO", "CALL Q", "S = 0", "CONTAINS", "SUBROUTINE Q", "{}", "END SUBROUTINE",
        )
        for statement, is_live in (("PRINT *, S", True), ("PRINT *, T", False)):
            made = program("SUBROUTINE P", "REAL A(9)", *(line.format(statement) for line in lines), "END", name="P")
            self.assertEqual("S" in made.live_after(), is_live)

    def test_end_of_a_unit(self) -> None:
        wanted = {
            "REAL A(9)": False, "REAL A(9)\nSAVE S": False, "REAL A(9)\nCOMMON S": True,
            "REAL A(9), S\nDATA S /1/": False, "REAL A(9)\nREAL, SAVE, TARGET :: S": True,
            "REAL A(9)\nSAVE S\nNAMELIST /L/ S": True,
        }
        for declarations, is_live in wanted.items():
            made = program("SUBROUTINE P", declarations, "DO I = 1, N", "S = A(I)", "END DO", "END")
            self.assertEqual("S" in made.live_after(), is_live, declarations)
        for intent, is_live in (("IN", False), ("OUT", True), ("INOUT", True)):
            made = program("SUBROUTINE P(S)", f"REAL, INTENT({intent}) :: S", "DO I = 1, 9", "S = I", "END DO", "END")
            self.assertEqual("S" in made.live_after(), is_live, intent)
        self.assertIn("F", program("FUNCTION F()", "DO I = 1, 9", "F = I", "END DO", "END").live_after())

    def test_values_that_the_next_run_finds(self) -> None:
        """What is saved is needed at the end where a run may read it before it assigns it."""
        loop = ("DO I = 1, 9", "S = A(I)", "T = I", "END DO")

        def live(*lines: str, saved: str = "SAVE") -> str:
            made = program("SUBROUTINE P", f"REAL A(9)\n{saved}", *lines, "END")
            return "".join(sorted(made.live_after() & {"I", "S", "T"}))

        self.assertEqual(live(*loop), "")
        self.assertEqual(live("X = S", *loop), "S")
        self.assertEqual(live("IF (A(1) > 0) X = S", *loop, "S = 0"), "")
        # T is needed, as the next run may make S of it, which a further one reads.
        self.assertEqual(live("IF (A(1) > 0) X = S", "S = T", *loop[:1], *loop[2:]), "ST")
        self.assertEqual(live("IF (A(2) > 0) S = T", "IF (A(1) > 0) X = S", *loop[:1], *loop[2:]), "ST")
        # A call may lead to a further run.
        self.assertEqual(live(*loop, "CALL Q"), "")
        self.assertEqual(live("X = I", *loop, "CALL Q", "I = 0"), "I")
        # So does an ENTRY, where it reads the variable before it assigns it.
        self.assertEqual(live(*loop, "RETURN", "ENTRY Q"), "")
        self.assertEqual(live(*loop, "RETURN", "ENTRY Q", "X = T"), "T")
        self.assertEqual(live(*loop, "RETURN", "ENTRY Q", "T = 1", "X = T + S"), "S")
        made = program(
            "SUBROUTINE P", "REAL A(9)\nSAVE", *loop, "CALL Q", "CONTAINS", "SUBROUTINE Q", "A(1) = S", "END SUBROUTINE",
            "END", name="P",
        )
        self.assertEqual(made.live_after() & {"I", "S", "T"}, {"S"})

    def test_shared_storage(self) -> None:
        loop = ("DO I = 1, N", "S = A(I)", "END DO")
        self.check("S", True, *loop, "X = T", declarations="REAL A(9)\nEQUIVALENCE (S, T)")
        self.check("S", True, *loop, "X = T", declarations="REAL A(9)\nREAL, TARGET :: S\nREAL, POINTER :: T")

    def test_aliases(self) -> None:
        """An ASSOCIATE reads and assigns another variable than it seems."""
        loop = ("DO I = 1, N", "S = A(I)", "END DO")
        self.check("S", True, "ASSOCIATE (T => S)", *loop, "X = T", "END ASSOCIATE")
        self.check("S", True, *loop, "ASSOCIATE (S => T)", "S = 1", "END ASSOCIATE", "X = S")

    def test_entry_and_assigned_go_to(self) -> None:
        head, loop = ["SUBROUTINE P", "REAL A(9)"], ["DO I = 1, N", "S = A(I)", "END DO"]
        made = program(*head, *loop, "RETURN", "ENTRY Q", "X = S", "END")
        self.assertNotIn("S", made.live_after())
        self.assertIn("S", made.facts.liveness.live_at_entry)
        made = program(*head, "SAVE S", *loop, "RETURN", "ENTRY Q", "X = S", "END")
        self.assertIn("S", made.live_after())
        made = program(*head, "SAVE S", *loop, "RETURN", "ENTRY Q", "S = 1", "X = S", "END")
        self.assertNotIn("S", made.live_after())
        made = program(*head, *loop, "ENTRY Q", "X = S", "END")
        self.assertIn("S", made.live_after())
        lines = ["DO I = 1, N", "S = A(I)", "END DO", "ASSIGN 10 TO K"]
        self.check("S", True, *lines, "GO TO K", "10 CONTINUE")
        self.check("S", False, *lines, "GO TO K, (10)", "10 CONTINUE")
        self.check("S", True, *lines, "GO TO K, (10, 20)", "10 RETURN", "20 X = S")

    def test_implied_do_of_output(self) -> None:
        """It assigns its variable, whose value before isn't needed."""
        loop = ["DO I = 1, N", "A(I) = 1", "END DO"]
        for line, wanted in [
            ("WRITE (*, *) (A(I), I = 1, 9)", False), ("PRINT *, I", True),
            ("PRINT *, I, (A(I), I = 1, N)", True), ("WRITE (*, *) (A(I), I = I, 9)", True),
            ("WRITE (*, *, IOSTAT=K) (A(I), I = 1, 9)", False), ("PRINT *, ((C(I,J), I = 1, 9), J = 1, M)", False),
        ]:
            with self.subTest(line):
                self.check("I", wanted, *loop, line)
        self.check("I", True, *loop, "WRITE (*, *, IOSTAT=K) (A(I), I = 1, 9)", "PRINT *, I")
        self.check("I", True, *loop, "PRINT *, ((C(I,J), I = 1, 9), J = 1, M)", "X = I")


class Iterations(unittest.TestCase):
    def check(self, name: str, exposed: bool, always: bool, *lines: str, index: int = 0) -> None:
        made = subroutine("DO I = 1, N", *lines, "END DO").iteration(index)
        self.assertEqual((name in made.exposed, name in made.always), (exposed, always), lines)

    def test_order(self) -> None:
        self.check("S", False, True, "S = A(I)", "A(I) = S")
        self.check("S", True, True, "A(I) = S", "S = A(I)")
        self.check("S", True, True, "S = S + 1")
        self.check("I", False, False, "A(I) = 1")

    def test_conditional_last_value(self) -> None:
        """A variable that only some iterations assign isn't the last iteration's: LASTPRIVATE alone is wrong for it."""
        self.check("S", False, False, "IF (A(I) > 1) S = A(I)")
        self.check("S", False, False, "IF (A(I) > 1) THEN", "S = A(I)", "A(I) = S", "END IF")
        self.check("S", False, True, "IF (A(I) > 1) THEN", "S = 1", "ELSE", "S = 2", "END IF")
        self.check("S", False, False, "IF (A(I) > 1) CYCLE", "S = 1")
        self.check("S", False, False, "DO J = 1, N", "S = 1", "END DO")
        self.check("S", False, False, "SELECT CASE (K)", "CASE (1)", "S = 1", "CASE (2)", "S = 2", "END SELECT")
        self.check("S", False, True, "SELECT CASE (K)", "CASE (1)", "S = 1", "CASE DEFAULT", "S = 2", "END SELECT")

    def test_ways_that_miss_the_assignment(self) -> None:
        self.check("S", True, False, "IF (A(I) > 1) S = 1", "A(I) = S")
        self.check("S", True, True, "IF (A(I) > 1) GO TO 10", "S = 1", "10 A(I) = S", "S = 2")
        self.check("S", True, False, "DO J = 1, N", "S = 1", "END DO", "A(I) = S")
        self.check("S", True, False, "DO J = 1, N", "A(J) = S", "S = 1", "END DO")
        self.check("J", False, True, "DO J = 1, N", "A(J) = 1", "END DO", "A(I) = J")

    def test_several_jumps(self) -> None:
        """After two GO TOs with one target S may be read on a way that assigns it nowhere."""
        self.check(
            "S", True, False, "IF (A(I) > 1) GO TO 10", "S = 1", "IF (A(I) > 2) GO TO 10", "GO TO 20", "10 A(I) = S",
            "20 CONTINUE",
        )

    def test_arrays_are_never_assigned_as_a_whole(self) -> None:
        self.check("A", True, False, "A = 1", "X = A(1)")

    def test_host_variable_that_a_contained_procedure_reads(self) -> None:
        made = program(
            "SUBROUTINE P", "REAL A(9)", "DO I = 1, 9", "CALL Q", "S = A(I)", "END DO", "CONTAINS", "SUBROUTINE Q",
            "X = S", "END SUBROUTINE", "END", name="P",
        )
        self.assertIn("S", made.iteration().exposed)


class Trips(unittest.TestCase):
    def test_constant_bounds(self) -> None:
        def value(expression: tree.Expression) -> Optional[int]:
            text = str(expression)
            return int(text) if text.lstrip("-").isdigit() else None

        wanted = {"1, 9": True, "9, 1": False, "9, 1, -1": True, "1, 9, -1": False, "3, 3": True, "1, N": False,
                  "1, 9, K": False, "1, 9, 20": True}
        for bounds, has in wanted.items():
            statement = subroutine(f"DO I = {bounds}", "END DO").loops[0].head.statement
            assert isinstance(statement, tree.Do) and isinstance(statement.control, tree.Counted)
            self.assertEqual(has_iteration(statement.control, value), has, bounds)
