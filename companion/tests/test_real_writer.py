"""The writer of models: fixed form within 72 columns, and each reference where `read_program` has it."""

import unittest
from typing import List

from ..lines import Place, split_lines
from ..program import read_program
from ..real.writer import (
    MOST_CONTINUATIONS, SUM_REFERENCES, Origin, Piece, TooLong, Use, Writer, Written, length, references, sum_of, sums,
)
from .support import view_of


def origin(name: str, line: int = 1, writes: bool = False) -> Origin:
    return Origin("S", line, name, name, writes)


def use(name: str, *subscripts: Piece, line: int = 1, writes: bool = False) -> Use:
    """A reference whose origin has the same name."""
    if not subscripts:
        return Use((name,), origin(name, line, writes))
    inside = [piece for subscript in subscripts for piece in (",", subscript)][1:]
    return Use((name, "(", *inside, ")"), origin(name, line, writes))


class Lines(unittest.TestCase):
    def written(self, writer: Writer) -> List[str]:
        return split_lines(writer.finish("MODEL", {}, []).text)

    def test_a_model(self) -> None:
        writer = Writer()
        writer.begin("DO I = 1, ", use("N"))
        writer.begin("IF (", use("B", "I"), ".NE.0) THEN")
        writer.assign(use("A", "I", writes=True), [use("B", "I+1"), use("C")])
        writer.turn("ELSE")
        writer.assign(use("A", "I", writes=True), [])
        writer.end("END IF")
        writer.end("END DO")
        written = writer.finish("A MODEL", {"A": 1, "B": 2}, ["A", "C"])
        self.assertEqual(written.text, """\
C     A MODEL
      IMPLICIT INTEGER (A-Z)
      INTEGER A(1)
      INTEGER B(1,1)
      SAVE A
      SAVE C
      DO I = 1, N
        IF (B(I).NE.0) THEN
          A(I) = B(I+1)+C
        ELSE
          A(I) = 1
        END IF
      END DO
      END
""")
        self.assertEqual(written.origins, {
            Place(7, 17): origin("N"), Place(8, 13): origin("B"), Place(9, 11): origin("A", writes=True),
            Place(9, 18): origin("B"), Place(9, 25): origin("C"), Place(11, 11): origin("A", writes=True),
        })

    def test_long_statements_are_cut_after_operators(self) -> None:
        writer = Writer()
        writer.assign(use("TARGET"), [use(f"NAME{number}", "I") for number in range(10, 20)])
        self.assertEqual(self.written(writer)[2:-1], [
            "      TARGET = NAME10(I)+NAME11(I)+NAME12(I)+NAME13(I)+NAME14(I)+",
            "     &NAME15(I)+NAME16(I)+NAME17(I)+NAME18(I)+NAME19(I)",
        ])

    def test_operators_of_several_characters_stay_whole(self) -> None:
        for width in range(40, 66):
            writer = Writer()
            name = "N" * 31
            writer.statement("IF (", use(name), "+", "I" * (width - 39), ".NE.OPQ**2*OPQ) THEN")
            writer.statement("END IF")
            lines = self.written(writer)
            self.assertTrue(any(".NE." in line for line in lines))
            self.assertTrue(any("**" in line for line in lines))

    def test_comments(self) -> None:
        writer = Writer()
        writer.comment("DO J OF LINE 23 OF " + "a/" * 60 + "heat.f90: A MODEL")
        lines = self.written(writer)
        self.assertTrue(all(line.startswith("C ") and len(line) <= 72 for line in lines[2:-1] if line != lines[1]))
        text = "".join("".join(line[1:] for line in lines[2:-1]).split())
        self.assertEqual(text, "DOJOFLINE23OF" + "a/" * 60 + "heat.f90:AMODEL")


    def test_comments_are_ascii(self) -> None:
        """A file may have any name, and ped reads bytes."""
        writer = Writer()
        writer.comment("DO I OF LINE 3 OF m\u0142yn\udcff\nEND.f90")
        self.assertIn("C     DO I OF LINE 3 OF m?yn? END.f90", self.written(writer))


class Places(unittest.TestCase):
    """The places are compared with those that the profile's own reader finds."""

    def compare(self, written: Written) -> None:
        lines = split_lines(written.text)
        self.assertTrue(all(len(line) <= 72 for line in lines))
        program = read_program(lines)
        found = {(one.span.start, one.name, one.writes) for one in program.references()}
        wanted = {(place, one.name, one.writes) for place, one in written.origins.items()}
        self.assertEqual(found, wanted)

    def test_long_statements(self) -> None:
        for depth in (0, 1, 3, 20):
            for width in (1, 7, 13, 31):
                writer = Writer()
                for _ in range(depth):
                    writer.begin("IF (", use("X"), ".NE.0) THEN")
                names = [f"{'N' * width}"[:width - 1] + letter for letter in "PQRSTUVWXYZ"] * 3
                reads = [use(name, use("IX", use(names[0])), "3") for name in names[:15]]
                writer.assign(use("LONGTARGET", use("K"), writes=True), reads)
                for _ in range(depth):
                    writer.end("END IF")
                self.compare(writer.finish("MODEL", {}, []))

    def test_ped_reads_it(self) -> None:
        writer = Writer()
        writer.begin("DO I = ", use("LOW"), ", ", use("HIGH"))
        reads = [use("A", use("INDEX1", f"I+{number}")) for number in range(1, 25)]
        writer.assign(use("A", "I", writes=True), reads)
        writer.reads(reads)
        writer.end("END DO")
        written = writer.finish("MODEL", {"A": 1, "INDEX1": 1}, ["A"])
        view = view_of(written.text)
        for row in view.dependences:
            for key in (row.source, row.sink):
                reference = view.program.reference(key)
                self.assertEqual(written.origins[reference.span.start].name, reference.name)
        self.assertTrue(view.dependences)


class Limits(unittest.TestCase):
    def test_sums_are_cut(self) -> None:
        reads: List[Piece] = [use(f"A{number}", "3") for number in range(SUM_REFERENCES + 1)]
        self.assertEqual([len(group) for group in sums(reads)], [SUM_REFERENCES, 1])
        reads = [use("N" * 31, "M" * 31, "L" * 31) for _ in range(30)]
        groups = sums(reads)
        self.assertTrue(all(length(*group) + len(group) <= 1200 for group in groups))
        self.assertEqual([read for group in groups for read in group], reads)
        self.assertEqual((sums([]), sum_of([])), ([], ["1"]))

    def test_a_long_assignment_reads_before_it(self) -> None:
        writer = Writer()
        writer.assign(use("T"), [use("A", str(number)) for number in range(100)])
        lines = split_lines(writer.finish("MODEL", {}, []).text)
        self.assertEqual(sum(line.startswith("      IF (") for line in lines), 1)
        self.assertEqual(sum("T = " in line for line in lines), 1)

    def test_a_target_that_leaves_little_room(self) -> None:
        writer = Writer()
        target = use("T", *[use("IX", use(f"J{number}")) for number in range(6)], writes=True)
        writer.assign(target, [use("A", "I")] * 59)
        program = read_program(split_lines(writer.finish("MODEL", {}, []).text))
        self.assertTrue(all(len(statement.references) <= 64 for statement in program.statements))
        self.assertEqual(sum(one.name == "A" for one in program.references()), 59)

    def test_what_has_no_room(self) -> None:
        for piece in (use("A", "+".join(["I"] * 700)), use("A", *[use("I")] * 64)):
            with self.assertRaises(TooLong):
                Writer().statement(piece, " = 1")

    def test_the_longest_statement_has_few_enough_lines(self) -> None:
        for name in ("N" * 31, "N" * 20, "9"):
            writer = Writer()
            for _ in range(30):
                writer.begin("IF (X.NE.0) THEN")
            text = "+".join([name] * 1300)[:1290].rstrip("+")
            writer.statement("A = ", text)
            lines = split_lines(writer.finish("MODEL", {}, []).text)
            self.assertTrue(sum(line.startswith("     &") for line in lines) <= MOST_CONTINUATIONS)

    def test_counts(self) -> None:
        one = use("A", use("B", "I"), "3")
        self.assertEqual((length(one), references(one)), (len("A(B(I),3)"), 3))
        self.assertEqual(references("IF (", one, "+MAX(K,2).NE.0) THEN"), 4)


if __name__ == "__main__":
    unittest.main()
