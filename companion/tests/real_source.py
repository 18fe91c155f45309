"""Lines and items of real files: columns, tabs, comments, continuation, constants, sentinels, the preprocessor.

What is wanted is what the standard says of source form, and what gfortran does where the standard says nothing.
"""

import unittest
from typing import List, Optional, Sequence, Tuple

from ..real.items import Item, read_items
from ..real.source import form_of, read_source, sentinel_kind

Row = Tuple[int, int, Optional[int], str]


def items(form: str, *lines: str) -> List[Item]:
    """The items of some lines."""
    return read_items(read_source("".join(line + "\n" for line in lines), form))


def rows(form: str, *lines: str) -> List[Row]:
    """Lines, label and text of each item, with blanks outside constants drawn together."""
    return [(item.first, item.last, item.label, " ".join(item.text.split())) for item in items(form, *lines)]


class Fixed(unittest.TestCase):
    def assertRows(self, lines: Sequence[str], wanted: Sequence[Row]) -> None:
        self.assertEqual(rows("fixed", *lines), list(wanted))

    def test_label_and_statement(self) -> None:
        self.assertRows(["   10 A = B"], [(1, 1, 10, "A = B")])

    def test_blanks_in_a_label(self) -> None:
        self.assertRows([" 1 0  A = B"], [(1, 1, 10, "A = B")])

    def test_comments(self) -> None:
        self.assertRows(["C A", "c B", "* D", "! E", "", "      ! F", "      A = B"], [(7, 7, None, "A = B")])

    def test_comment_after_a_statement(self) -> None:
        self.assertRows(["      A = B ! AND C"], [(1, 1, None, "A = B")])

    def test_exclamation_mark_in_a_constant(self) -> None:
        self.assertRows(["      A = 'B ! C' ! D"], [(1, 1, None, "A = 'B ! C'")])

    def test_exclamation_mark_in_column_6(self) -> None:
        self.assertRows(["      A = B +", "     !C"], [(1, 2, None, "A = B + C")])

    def test_text_after_column_72(self) -> None:
        line = "      A = B" + " " * 61
        self.assertEqual(len(line), 72)
        self.assertRows([line + "+ C"], [(1, 1, None, "A = B")])
        self.assertRows([line[:-1] + "1 2"], [(1, 1, None, "A = B 1")])

    def test_number_in_columns_73_to_80_before_a_continuation(self) -> None:
        first = ("      A = B +" + " " * 60)[:72] + "00000010"
        self.assertRows([first, "     &    C"], [(1, 2, None, "A = B + C")])

    def test_more_columns(self) -> None:
        source = read_source("      A = B" + " " * 61 + "+ C\n", "fixed", columns=132)
        self.assertEqual(read_items(source)[0].text.replace(" ", ""), "A=B+C")

    def test_continuation(self) -> None:
        self.assertRows(["      A = B", "     1  + C", "     2  + D"], [(1, 3, None, "A = B + C + D")])

    def test_zero_in_column_6_begins_a_statement(self) -> None:
        self.assertRows(["      A = B", "     0C = D"], [(1, 1, None, "A = B"), (2, 2, None, "C = D")])

    def test_number_sign_in_column_6(self) -> None:
        self.assertRows(["      A = B", "     # + C"], [(1, 2, None, "A = B + C")])

    def test_comment_and_blank_line_before_a_continuation(self) -> None:
        self.assertRows(["      A = B", "C COMMENT", "", "     & + C"], [(1, 4, None, "A = B + C")])

    def test_comment_after_a_line_that_goes_on(self) -> None:
        self.assertRows(["      A = B ! IT'S", "     & + C"], [(1, 2, None, "A = B + C")])

    def test_constant_over_two_lines(self) -> None:
        first = "      A = 'X" + "Y" * 60
        self.assertEqual(len(first), 72)
        self.assertRows([first, "     &Z ! W'"], [(1, 2, None, "A = 'X" + "Y" * 60 + "Z ! W'")])

    def test_blanks_up_to_column_72_belong_to_a_constant(self) -> None:
        item, = items("fixed", "      A = 'X", "     &Y'")
        self.assertEqual(item.text, "A = 'X" + " " * 60 + "Y'")

    def test_quote_at_the_beginning_of_a_continuation_line(self) -> None:
        # The library's reader takes it for the beginning of a constant, and what follows it for a part of this.
        first = "      A = 'X" + "Y" * 60
        self.assertRows([first, "     &' // B(I) ! C'"], [(1, 2, None, "A = 'X" + "Y" * 60 + "' // B(I)")])
        self.assertRows([first, "     &'' ! ', B(I)"], [(1, 2, None, "A = 'X" + "Y" * 60 + "'' ! ', B(I)")])

    def test_tab_goes_to_column_7(self) -> None:
        self.assertRows(["\tA = B", "10\tC = D"], [(1, 1, None, "A = B"), (2, 2, 10, "C = D")])

    def test_tab_before_a_continuation_digit(self) -> None:
        self.assertRows(["\tA = B +", "\t1 C"], [(1, 2, None, "A = B + C")])

    def test_tab_before_a_zero_begins_a_statement(self) -> None:
        # What gfortran reads here is a `0` in column 7.
        self.assertEqual([item.first for item in items("fixed", "\tA = B", "\t0C = D")], [1, 2])

    def test_later_tab_is_one_column(self) -> None:
        line = "      A =\tB" + " " * 60
        self.assertEqual(len(line), 71)
        self.assertRows([line + "1" + "2"], [(1, 1, None, "A = B 1")])

    def test_semicolons(self) -> None:
        # The library's reader makes small letters of them.
        self.assertRows(
            ["      A = 1; B = ';' ; C = 3"], [(1, 1, None, "a = 1"), (1, 1, None, "b = ';'"), (1, 1, None, "c = 3")],
        )

    def test_backslash_escapes_nothing(self) -> None:
        self.assertRows(
            ["      A = '\\' // B ! '", "      C = D"], [(1, 1, None, "A = '\\' // B"), (2, 2, None, "C = D")],
        )

    def test_quotes(self) -> None:
        self.assertRows(["      A = 'IT''S' // \"'!\" ! X"], [(1, 1, None, "A = 'IT''S' // \"'!\"")])

    def test_construct_name(self) -> None:
        item, = items("fixed", "      outer: DO I = 1, N")
        self.assertEqual((item.name, item.text), ("OUTER", "DO I = 1, N"))

    def test_line_ends(self) -> None:
        source = read_source("      A = 1\r\n      B = 2\r\n      C = 3", "fixed")
        self.assertEqual([item.text for item in read_items(source)], ["A = 1", "B = 2", "C = 3"])
        self.assertEqual(source.lines, ("      A = 1", "      B = 2", "      C = 3"))

    def test_bytes_above_127(self) -> None:
        item, = items("fixed", "      A = '\xe4\xa0\xff'")
        self.assertEqual(item.first, 1)

    def test_form_feed(self) -> None:
        self.assertRows(["\f", "      A = 1"], [(2, 2, None, "A = 1")])

    def test_letters_in_columns_1_to_5(self) -> None:
        broken, other = items("fixed", "D     A = 1", "      B = 2")
        self.assertTrue(broken.fault)
        self.assertEqual((broken.first, broken.text), (1, "D     A = 1"))
        self.assertEqual((other.fault, other.text), ("", "B = 2"))

    def test_letters_in_columns_1_to_5_never_begin_free_form(self) -> None:
        # The library's reader would take the rest of the file for free form, and line 4 for two statements.
        found = rows("fixed", " X = 1 &", "      A = 1", "     & + 2", "C     B = 1", "      END")
        self.assertEqual(found[1:], [(2, 3, None, "A = 1 + 2"), (5, 5, None, "END")])

    def test_label_on_a_continuation_line(self) -> None:
        found = items("fixed", "      A = 1", "   10& + 2")
        self.assertEqual([bool(item.fault) for item in found], [False, True])

    def test_continuation_of_nothing(self) -> None:
        found = items("fixed", "     & + 2", "      A = 1")
        self.assertEqual([bool(item.fault) for item in found], [True, False])

    def test_label_alone_belongs_to_the_next_line(self) -> None:
        self.assertRows(["   20", "     &  CONTINUE"], [(1, 2, 20, "CONTINUE")])

    def test_label_without_statement(self) -> None:
        item, = items("fixed", "   20")
        self.assertEqual((item.label, item.text), (20, ""))
        self.assertTrue(item.fault)

    def test_nothing_before_a_semicolon_loses_no_line(self) -> None:
        found = items("fixed", "      ; A = 1", "      B = 2")
        self.assertEqual([(item.first, bool(item.fault)) for item in found], [(1, True), (2, False)])

    def test_end_of_file_by_control_z(self) -> None:
        self.assertRows(["      A = 1", "\x1a", "      B = 1"], [(1, 1, None, "A = 1")])
        self.assertEqual(read_source("      A = 1\n\x1a\nB\n", "fixed").lines, ("      A = 1", "\x1a", "B"))


class Free(unittest.TestCase):
    def assertRows(self, lines: Sequence[str], wanted: Sequence[Row]) -> None:
        self.assertEqual(rows("free", *lines), list(wanted))

    def test_statement_and_label(self) -> None:
        self.assertRows(["a = b", "10 continue"], [(1, 1, None, "a = b"), (2, 2, 10, "continue")])

    def test_continuation(self) -> None:
        self.assertRows(["a = b & ! one", "  + c"], [(1, 2, None, "a = b + c")])
        self.assertRows(["a = b &", "", "! two", "  & + c &", "  & + d"], [(1, 5, None, "a = b + c + d")])

    def test_name_over_two_lines(self) -> None:
        self.assertRows(["a = lon&", "  &gname"], [(1, 2, None, "a = longname")])

    def test_constant_over_two_lines(self) -> None:
        self.assertRows(["a = 'b ! &", "  & c' ! d"], [(1, 2, None, "a = 'b ! c'")])

    def test_quote_at_the_beginning_of_a_continuation_line(self) -> None:
        self.assertRows(["a = 'b&", "  &' // c(i) ! d'"], [(1, 2, None, "a = 'b' // c(i)")])
        self.assertRows(["a = f('b&", "  &'' ! ', c(i)) ! d"], [(1, 2, None, "a = f('b'' ! ', c(i))")])

    def test_constant_that_is_not_closed(self) -> None:
        self.assertRows(["a = 'b", "c = d ! e"], [(1, 1, None, "a = 'b"), (2, 2, None, "c = d")])

    def test_ampersand_in_a_constant(self) -> None:
        self.assertRows(["a = 'b & c'", "d = e"], [(1, 1, None, "a = 'b & c'"), (2, 2, None, "d = e")])

    def test_semicolons(self) -> None:
        self.assertRows(["a = 1; 10 b = 2;"], [(1, 1, None, "a = 1"), (1, 1, 10, "b = 2")])

    def test_text_after_column_72(self) -> None:
        self.assertRows(["a = b" + " " * 80 + "+ c"], [(1, 1, None, "a = b + c")])

    def test_backslash_escapes_nothing(self) -> None:
        self.assertRows(["a = '\\' ! it's", "b = c"], [(1, 1, None, "a = '\\'"), (2, 2, None, "b = c")])

    def test_construct_name(self) -> None:
        item, = items("free", "outer: do i = 1, n")
        self.assertEqual((item.name, item.text), ("OUTER", "do i = 1, n"))

    def test_colons_that_end_no_name(self) -> None:
        self.assertEqual([item.name for item in items("free", "integer :: x", "a(1:2) = 3")], ["", ""])

    def test_label_without_statement(self) -> None:
        item, = items("free", "20")
        self.assertEqual(item.label, 20)
        self.assertTrue(item.fault)

    def test_tabs(self) -> None:
        self.assertRows(["\ta\t=\tb"], [(1, 1, None, "a = b")])


class Marks(unittest.TestCase):
    def assertMarks(self, form: str, lines: Sequence[str], wanted: Sequence[Tuple[str, int, int]]) -> None:
        source = read_source("\n".join(lines), form)
        self.assertEqual([(mark.kind, mark.first, mark.last) for mark in source.marks], list(wanted))

    def test_lines_for_compilers_with_openmp(self) -> None:
        self.assertMarks("fixed", ["!$    A = 1", "C$ 10 A = 1", "*$   &+ 2"],
                         [("conditional", n, n) for n in (1, 2, 3)])
        self.assertMarks("free", ["  !$ a = 1", "!$ & + 2"], [("conditional", 1, 1), ("conditional", 2, 2)])

    def test_directives(self) -> None:
        self.assertMarks("fixed", ["!$OMP PARALLEL DO", "c$omp& private(x)", "*$acc loop"],
                         [("directive", n, n) for n in (1, 2, 3)])
        self.assertMarks("free", ["  !$omp parallel do"], [("directive", 1, 1)])

    def test_other_comments(self) -> None:
        for comment in ("! A", "!$Id: x $", "!DIR$ IVDEP", "C A$"):
            self.assertEqual(sentinel_kind(comment), "", comment)
        self.assertMarks("fixed", ["      A = 1 !$ B = 2"], [])

    def test_preprocessor(self) -> None:
        lines = ["a = 1", "#ifdef X", "b = 1", "#if Y", "#else", "#endif", "#endif", "c = 1", "#pragma once"]
        self.assertMarks("free", lines, [("preprocessor", 2, 7), ("preprocessor", 9, 9)])

    def test_preprocessor_that_goes_on(self) -> None:
        self.assertMarks("free", ["#define A \\", "  b = 1", "c = 1"], [("preprocessor", 1, 3)])
        self.assertEqual(rows("free", "#define A \\", "  b = 1", "c = 1"), [(3, 3, None, "c = 1")])
        self.assertMarks("fixed", ["      A = 1", '#include "x.h"', "      B = 1"], [("preprocessor", 2, 3)])

    def test_preprocessor_without_end(self) -> None:
        self.assertMarks("free", ["#if X", "a = 1"], [("preprocessor", 1, 2)])

    def test_preprocessor_inside_a_statement(self) -> None:
        found = rows("free", "a = b &", "#ifdef X", "  + c", "#endif")
        self.assertEqual(found, [(1, 3, None, "a = b + c")])


class Includes(unittest.TestCase):
    def test_forms(self) -> None:
        for line in ("      INCLUDE 'a.inc'", "      include \"a.inc\" ! x", "\tINCLUDE 'a.inc'"):
            item, = items("fixed", line)
            self.assertEqual((item.include, item.fault), ("a.inc", ""), line)
        item, = items("free", "include 'a.inc'")
        self.assertEqual(item.include, "a.inc")

    def test_variable_of_this_name(self) -> None:
        item, = items("free", "include = 1")
        self.assertEqual(item.include, "")

    def test_statement_that_goes_on_from_an_include(self) -> None:
        found = items("fixed", "      INCLUDE 'a.inc'", "     & + 1")
        self.assertEqual([bool(item.fault) for item in found], [False, True])


class Forms(unittest.TestCase):
    def test_suffixes(self) -> None:
        for path in ("a.f90", "a.F90", "b/a.f08", "a.F18"):
            self.assertEqual(form_of(path), "free", path)
        for path in ("a.f", "a.F", "a.for", "a.ftn", "f90"):
            self.assertEqual(form_of(path), "fixed", path)
