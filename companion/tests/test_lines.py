"""Lines: columns, labels, continuation, comments, directives, character constants."""

import unittest

from ..lines import Directive, Place, is_comment, is_continuation, read_statements, split_lines


class Lines(unittest.TestCase):
    def test_line_ends(self) -> None:
        self.assertEqual(split_lines("A\nB\r\nC\r\r\n\nD"), ["A", "B", "C\r", "", "D"])
        self.assertEqual(split_lines("A\n"), ["A"])
        self.assertEqual(split_lines(""), [])

    def test_comments(self) -> None:
        for line in ("C A", "c", "*", "", "      ", " " * 72 + "TEXT"):
            self.assertTrue(is_comment(line), line)
        for line in ("      END", "1", "     X"):
            self.assertFalse(is_comment(line), line)

    def test_continuation(self) -> None:
        self.assertTrue(is_continuation("     &A"))
        self.assertTrue(is_continuation("     1"))
        for line in ("      A", "     0A", "10", ""):
            self.assertFalse(is_continuation(line), line)

    def test_blanks_and_letters(self) -> None:
        statement, = read_statements(["  1 0 do 10 i = 1, n"])
        self.assertEqual(statement.label, 10)
        self.assertEqual(str(statement.text), "DO10I=1,N")
        self.assertEqual(statement.text[0].start, Place(1, 7))
        self.assertEqual(statement.text[8].start, Place(1, 20))

    def test_continuation_lines(self) -> None:
        statement, second = read_statements(["      A = B", "C COMMENT", "     &  + C", "      END"])
        self.assertEqual((statement.first_line, statement.last_line), (1, 3))
        self.assertEqual(str(statement.text), "A=B+C")
        self.assertEqual(statement.text[4].start, Place(3, 11))
        self.assertEqual(second.first_line, 4)

    def test_nothing_past_column_72(self) -> None:
        statement, = read_statements(["      A = 1" + " " * 61 + "2"])
        self.assertEqual(str(statement.text), "A=1")

    def test_constants(self) -> None:
        statement, = read_statements(["      print *, 'It''s a b', k"])
        self.assertEqual(str(statement.text), "PRINT*,'It''s a b',K")
        self.assertEqual(statement.text.letters, "PRINT*,',K")
        self.assertEqual((statement.text[7].start, statement.text[7].end), (Place(1, 16), Place(1, 26)))

    def test_constant_that_goes_on(self) -> None:
        # Columns 7 to 72 of the first line hold the apostrophe and 65 characters, the last of them blanks.
        statement, = read_statements(["      PRINT *, 'A", "     &B'"])
        self.assertEqual(str(statement.text), "PRINT*,'A" + " " * 55 + "B'")

    def test_directives(self) -> None:
        first, second = read_statements([
            "C$PED REJECT A", "c$ped re ject bb", "C NOTHING", "      DO 10 I=1,2", "   10 K=1",
        ])
        self.assertEqual(first.directives, (Directive(1, "A"), Directive(2, "BB")))
        self.assertEqual(second.directives, ())

    def test_parentheses(self) -> None:
        statement, = read_statements(["      A(I,J) = F(K,L), M"])
        text = statement.text
        self.assertEqual([str(part) for part in text.split(",")], ["A(I,J)=F(K,L)", "M"])
        self.assertEqual(text.closing(1), 5)
        self.assertEqual(list(text.outside_parentheses("=")), [6])


if __name__ == "__main__":
    unittest.main()
