"""Directives: what they say, where lines are cut, and that nothing else of a file changes."""

import unittest

from ..real.directives import Clauses, directive_lines, directive_text, indentation_of, with_directives


class Texts(unittest.TestCase):
    def test_clauses(self) -> None:
        clauses = Clauses(
            ("D", "E"), ("T",), ("I",), ("C",), (("MAX", "BIG"), ("+", "S"), ("+", "Q")),
            (("K", "2"), ("IX", "INCX"), ("L", "2")),
        )
        self.assertEqual(directive_text(clauses, "fixed"), (
            "!$OMP PARALLEL DO PRIVATE(D,E) FIRSTPRIVATE(T) LASTPRIVATE(T,I) LASTPRIVATE(CONDITIONAL:C) "
            "REDUCTION(MAX:BIG) REDUCTION(+:S,Q) LINEAR(K,L:2) LINEAR(IX:INCX)"
        ))
        self.assertEqual(clauses.names, ("D", "E", "T", "I", "C", "BIG", "S", "Q", "K", "IX", "L"))
        self.assertEqual(directive_text(Clauses(), "fixed"), "!$OMP PARALLEL DO")
        self.assertEqual(
            directive_text(Clauses(("D",), reductions=(("MAX", "DIFF"),)), "free"),
            "!$omp parallel do private(d) reduction(max:diff)",
        )

    def test_fixed_form_ends_at_column_72(self) -> None:
        clauses = Clauses(tuple(f"NAME{number:02}" for number in range(20)), reductions=((".NEQV.", "ODD"),))
        self.assertEqual(directive_lines(clauses, "fixed"), [
            "!$OMP PARALLEL DO PRIVATE(NAME00,NAME01,NAME02,NAME03,NAME04,NAME05,",
            "!$OMP&NAME06,NAME07,NAME08,NAME09,NAME10,NAME11,NAME12,NAME13,NAME14,",
            "!$OMP&NAME15,NAME16,NAME17,NAME18,NAME19) REDUCTION(.NEQV.:ODD)",
        ])

    def test_free_form_ends_at_column_100(self) -> None:
        clauses = Clauses(tuple(f"NAME{number:02}" for number in range(20)), reductions=((".NEQV.", "ODD"),))
        self.assertEqual(directive_lines(clauses, "free", 4), [
            "    !$omp parallel do private(name00,name01,name02,name03,name04,name05,name06,name07,name08, &",
            "    !$omp&name09,name10,name11,name12,name13,name14,name15,name16,name17,name18,name19) &",
            "    !$omp& reduction(.neqv.:odd)",
        ])

    def test_nothing_is_wider(self) -> None:
        long_names = tuple("N" * 60 + f"{number:03}" for number in range(4))
        clauses = Clauses(
            long_names, long_names, reductions=tuple((".NEQV.", name) for name in long_names),
            inductions=(("K", f"{long_names[0]}+({long_names[1]}-{long_names[2]})*3"),),
        )
        for form, width in (("fixed", 72), ("free", 100)):
            lines = directive_lines(clauses, form, 90)
            self.assertTrue(all(len(line) <= width for line in lines), lines)
            joined = "".join(line.strip().upper().replace("!$OMP&", "").rstrip("&").replace(" ", "") for line in lines)
            self.assertEqual(joined, directive_text(clauses, "fixed").replace(" ", ""))


class Insertion(unittest.TestCase):
    def test_only_the_directives_come_in(self) -> None:
        for end in ("\n", "\r\n"):
            for last in ("", end):
                lines = ["a\xe9b", "  do i", "c", "", "do j", "end\f x"]
                text = end.join(lines) + last
                wanted = end.join(["a\xe9b", "X", "Y", "  do i", "c", "", "Z", "do j", "end\f x"]) + last
                self.assertEqual(with_directives(text, {2: ["X", "Y"], 5: ["Z"]}), wanted)
                self.assertEqual(with_directives(text, {}), text)

    def test_ends_are_those_of_the_line(self) -> None:
        self.assertEqual(with_directives("a\r\nb\nc", {1: ["X"], 2: ["Y"], 3: ["Z"]}), "X\r\na\r\nY\nb\nZ\nc")

    def test_indentation(self) -> None:
        self.assertEqual([indentation_of(line) for line in ("do", "  do", "\t do", "")], [0, 2, 2, 0])


if __name__ == "__main__":
    unittest.main()
