"""Units and blocks of real files: nesting, shared labels, INCLUDE, and what is wrong in one unit alone."""

import tempfile
import unittest
from pathlib import Path
from typing import List, Sequence, Tuple

from ..real import tree
from ..real.blocks import read_file
from ..real.units import Block, File, InterfaceBlock, Node, TypeDefinition, Unit, Written, statements_of


def fixed(*statements: str) -> File:
    """A file in fixed form; digits at the front of a statement are its label."""
    lines = []
    for statement in statements:
        label, _, rest = statement.partition(" ")
        lines.append(f"{label:>5} {rest}" if label.isdigit() else f"      {statement}")
    return read_file("p.f", "".join(f"{line}\n" for line in lines))


def free(*lines: str) -> File:
    """A file in free form."""
    return read_file("p.f90", "".join(f"{line}\n" for line in lines))


def shape(nodes: Sequence[Node]) -> str:
    """Nodes as text: the lines of statements, and blocks with their kinds, lines and branches in parentheses."""
    return " ".join(_shape(node) for node in nodes)


def _shape(node: Node) -> str:
    if isinstance(node, Written):
        return str(node.item.first)
    branches = " | ".join(f"{branch.head.item.first}: {shape(branch.body)}" for branch in node.branches)
    end = "?" if node.end is None else str(node.end.item.first)
    return f"{node.kind}({branches} .{end})"


def reasons(unit: Unit) -> List[Tuple[str, int]]:
    """The classes and lines of a unit's faults."""
    return [(fault.reason, fault.line) for fault in unit.faults]


class Units(unittest.TestCase):
    def test_kinds_and_names(self) -> None:
        file = fixed(
            "X = 1", "END", "SUBROUTINE S(A)", "END", "REAL*8 FUNCTION F(X)", "F = X", "END FUNCTION F", "BLOCK DATA",
            "COMMON /C/ Y", "END", "PROGRAM P", "END",
        )
        self.assertEqual([(unit.kind, unit.name, unit.first_line, unit.last_line) for unit in file.units], [
            ("PROGRAM", "", 1, 2), ("SUBROUTINE", "S", 3, 4), ("FUNCTION", "F", 5, 7), ("BLOCK DATA", "", 8, 10),
            ("PROGRAM", "P", 11, 12),
        ])
        self.assertEqual([unit.faults for unit in file.units], [()] * 5)

    def test_contained_procedures(self) -> None:
        file = free(
            "module m", "integer :: n", "contains", "subroutine s", "call t", "contains", "subroutine t", "n = 1",
            "end subroutine", "end subroutine", "pure function f(x) result(y)", "y = x", "end function", "end module",
        )
        self.assertEqual([unit.path for unit in file.all_units()], ["M", "M:S", "M:S:T", "M:F"])
        self.assertEqual([unit.faults for unit in file.all_units()], [()] * 4)
        function = file.units[0].contained[1]
        assert function.head is not None and isinstance(function.head.statement, tree.Head)
        self.assertEqual((function.head.statement.result, function.head.statement.prefixes), ("Y", {"PURE"}))

    def test_specification_and_body(self) -> None:
        unit, = fixed(
            "SUBROUTINE S(A)", "REAL A(10)", "DATA X /1/", "10 FORMAT (I5)", "F(X) = X*X", "A(1) = F(X)", "ENTRY E(A)",
            "RETURN", "END",
        ).units
        self.assertEqual([declared.item.first for declared in unit.specification if isinstance(declared, Written)],
                         [2, 3, 4])
        self.assertEqual(shape(unit.body), "5 6 7 8")
        self.assertEqual([written.item.first for written in unit.statements()], list(range(1, 10)))

    def test_types_and_interfaces(self) -> None:
        unit, = free(
            "program p", "type, extends(base) :: t", "  real :: x", "contains", "  procedure :: f => g", "end type",
            "interface", "  function h(x)", "    real :: x", "  end function", "end interface", "enum, bind(c)",
            "  enumerator :: red = 1", "end enum", "x = 1", "end",
        ).units
        definition, interface, *others = unit.specification
        assert isinstance(definition, TypeDefinition) and isinstance(interface, InterfaceBlock)
        self.assertEqual([part.item.first for part in definition.components], [3])
        self.assertEqual([part.item.first for part in definition.bindings], [5])
        self.assertEqual([(body.kind, body.name) for body in interface.bodies], [("FUNCTION", "H")])
        self.assertEqual(len(others), 3)
        self.assertEqual((unit.faults, shape(unit.body)), ((), "15"))

    def test_numbers_are_in_order_of_text(self) -> None:
        file = fixed("DO 10 I=1,2", "10 X = 1", "END", "Y = 2", "END")
        self.assertEqual([written.number for unit in file.units for written in unit.statements()], [0, 1, 2, 3, 4])


class Blocks(unittest.TestCase):
    def assertBody(self, file: File, wanted: str) -> None:
        unit = file.units[0]
        self.assertEqual((shape(unit.body), unit.faults), (wanted, ()))

    def test_blocks(self) -> None:
        self.assertBody(free("if (a) then", "x = 1", "else if (b) then", "else", "y = 1", "end if", "end"),
                        "IF(1: 2 | 3:  | 4: 5 .6)")
        self.assertBody(free("select case (i)", "case (1)", "x = 1", "case default", "end select", "end"),
                        "SELECT(2: 3 | 4:  .5)")
        self.assertBody(free("where (a > 0)", "a = 1", "elsewhere", "a = 2", "end where", "where (a > 0) a = 1", "end"),
                        "WHERE(1: 2 | 3: 4 .5) 6")
        self.assertBody(free("forall (i=1:n)", "a(i) = 1", "end forall", "forall (i=1:n) a(i) = 1", "end"),
                        "FORALL(1: 2 .3) 4")
        self.assertBody(free("do", "exit", "end do", "do while (a)", "end do", "do concurrent (i=1:n)", "end do",
                             "end"), "DO(1: 2 .3) DO(4:  .5) DO(6:  .7)")
        self.assertBody(free("associate (a => b)", "a = 1", "end associate", "block", "end block", "critical",
                             "end critical", "end"), "ASSOCIATE(1: 2 .3) BLOCK(4:  .5) CRITICAL(6:  .7)")

    def test_names(self) -> None:
        unit = free("outer: do i = 1, n", "cycle outer", "end do outer", "end").units[0]
        block = unit.body[0]
        assert isinstance(block, Block)
        self.assertEqual((block.name, block.first_line, block.last_line), ("OUTER", 1, 3))

    def test_labelled_do(self) -> None:
        self.assertBody(fixed("DO 10 I=1,N", "A(I) = 1", "10 CONTINUE", "X = 1", "END"), "DO(1: 2 3 .3) 4")
        self.assertBody(fixed("DO 10 I=1,N", "10 A(I) = 1", "END"), "DO(1: 2 .2)")
        self.assertBody(fixed("DO 10 I=1,N", "A(I) = 1", "10 END DO", "END"), "DO(1: 2 .3)")

    def test_shared_label(self) -> None:
        file = fixed("DO 10 I=1,N", "X = 1", "DO 10 J=1,N", "DO 10 K=1,N", "10 A(I,J) = X", "END")
        self.assertBody(file, "DO(1: 2 DO(3: DO(4: 5 .5) .5) .5)")
        loops = list(file.units[0].loops())
        self.assertEqual([loop.shares_end for loop in loops], [True] * 3)
        self.assertEqual([written.item.first for written in statements_of(file.units[0].body)], [1, 2, 3, 4, 5])
        self.assertEqual([loop.last_line for loop in loops], [5, 5, 5])

    def test_shared_label_of_some(self) -> None:
        file = fixed("DO 10 I=1,N", "DO 20 J=1,N", "DO 20 K=1,N", "20 CONTINUE", "10 CONTINUE", "END")
        self.assertBody(file, "DO(1: DO(2: DO(3: 4 .4) .4) 5 .5)")
        self.assertEqual([loop.shares_end for loop in file.units[0].loops()], [False, True, True])

    def test_label_without_blanks(self) -> None:
        self.assertBody(fixed("DO10I=1,N", "10 A(I)=1", "END"), "DO(1: 2 .2)")
        self.assertBody(fixed("D O 1 0 I = 1 , N", "10 A(I)=1", "END"), "DO(1: 2 .2)")

    def test_label_before_the_do_that_wants_it(self) -> None:
        self.assertBody(fixed("10 CONTINUE", "DO 20 I=1,N", "20 CONTINUE", "GO TO 10", "END"), "1 DO(2: 3 .3) 4")

    def test_text_that_looks_like_a_block(self) -> None:
        self.assertBody(fixed("DO10I=1.5", "IF (X) = 1", "END = 1", "IF (A) X = 1", "END"), "1 2 3 4")

    def test_loops_come_outer_ones_first(self) -> None:
        file = free("if (a) then", "do i = 1, 2", "do j = 1, 2", "end do", "end do", "else", "do k = 1, 2", "end do",
                    "end if", "end")
        self.assertEqual([loop.first_line for loop in file.units[0].loops()], [2, 3, 7])

    def test_nothing_is_converted_for_it(self) -> None:
        file = free("do i = 1, n", "call s(", "end do", "end")
        loop, = file.units[0].loops()
        self.assertEqual([written._statement for written in loop.statements()][:2], [None, None])
        self.assertIsInstance(loop.body[0].statement if isinstance(loop.body[0], Written) else None, tree.Unreadable)


class Faults(unittest.TestCase):
    def assertFaults(self, file: File, *wanted: Sequence[Tuple[str, int]]) -> None:
        self.assertEqual([reasons(unit) for unit in file.units], [list(faults) for faults in wanted])

    def test_end_is_missing(self) -> None:
        file = fixed(
            "DO 5 I=1,3", "IF (X) THEN", "5 CONTINUE", "END", "DO 6 I=1,3", "END", "DO 7 I=1,3", "7 X=1", "END",
        )
        self.assertFaults(file, [("parse", 2)], [("parse", 5)], [])
        self.assertEqual(shape(file.units[1].body), "DO(5:  .?)")

    def test_end_without_beginning(self) -> None:
        self.assertFaults(free("end if", "end", "else", "end", "x = 1", "end"), [("parse", 1)], [("parse", 3)], [])
        self.assertFaults(free("if (a) then", "end do", "end if", "end"), [("parse", 2)])

    def test_blocks_that_cross(self) -> None:
        self.assertFaults(free("do i = 1, 2", "if (a) then", "end do", "end if", "end"), [("parse", 2), ("parse", 4)])

    def test_label_that_is_not_the_do_s(self) -> None:
        self.assertFaults(fixed("DO 10 I=1,2", "20 END DO", "END"), [("parse", 2)])
        self.assertFaults(fixed("DO 10 I=1,2", "DO 10 J=1,2", "10 END DO", "END"), [("parse", 3), ("parse", 1)])

    def test_unit_without_end(self) -> None:
        self.assertFaults(fixed("SUBROUTINE A", "X = 1", "SUBROUTINE B", "END"), [("parse", 2)], [])
        self.assertFaults(fixed("SUBROUTINE A", "X = 1"), [("parse", 2)])

    def test_head_that_cannot_be_read(self) -> None:
        self.assertFaults(fixed("SUBROUTINE A(5)", "END", "SUBROUTINE B", "END"), [("parse", 1)], [])

    def test_unreadable_line_stays_in_its_place(self) -> None:
        file = free("do i = 1, n", "my_macro(x)", "end do", "end")
        self.assertEqual((shape(file.units[0].body), file.units[0].faults), ("DO(1: 2 .3)", ()))

    def test_nothing_is_lost_in_wrong_files(self) -> None:
        texts = [
            ["contains", "end", "end"], ["end interface", "end type", "case (1)"],
            ["module m", "contains", "x = 1", "end"], ["interface", "subroutine s", "x = 1"],
            ["type t", "subroutine s", "end"], ["else", "end do", "10 continue"],
            ["module m", "interface", "end module", "contains", "end"], [""], ["program p", "program q", "program r"],
        ]
        for lines in texts:
            file = free(*lines)
            text = repr([unit.specification for unit in file.all_units()])
            found = [written.item.first for unit in file.all_units() for written in unit.statements()]
            for number, line in enumerate(lines, 1):
                if line and line != "contains":
                    self.assertTrue(number in found or f"{line} (line {number})" in text, (lines, line))


class Preprocessor(unittest.TestCase):
    def test_unit_that_is_touched(self) -> None:
        file = free("subroutine a", "#ifdef X", "x = 1", "#endif", "end", "subroutine b", "end")
        self.assertEqual([reasons(unit) for unit in file.units], [[("preprocessor", 2)], []])

    def test_all_after_a_definition(self) -> None:
        file = free("subroutine a", "end", "#define X 1", "subroutine b", "end")
        self.assertEqual([reasons(unit) for unit in file.units], [[], [("preprocessor", 3)]])

    def test_marks(self) -> None:
        file = free("!$omp parallel do", "do i = 1, n", "!$ x = 1", "end do", "end")
        self.assertEqual([(mark.kind, mark.first) for mark in file.marks_in(2, 4)], [("conditional", 3)])
        self.assertEqual([(mark.kind, mark.first) for mark in file.marks_in(1, 5)],
                         [("directive", 1), ("conditional", 3)])


class Includes(unittest.TestCase):
    def read(self, text: str, **files: str) -> File:
        """A file `p.f` beside which there are others with the suffix `inc`, and the folder `more` with `far.inc`."""
        with tempfile.TemporaryDirectory() as folder:
            for name, content in files.items():
                (Path(folder) / f"{name}.inc").write_text(content)
            more = Path(folder) / "more"
            more.mkdir()
            (more / "far.inc").write_text("      REAL FAR\n")
            return read_file(str(Path(folder) / "p.f"), text, folders=[str(more)])

    def test_file_that_is_found(self) -> None:
        file = self.read("      SUBROUTINE S\n      INCLUDE 'a.inc'\n      X = 1\n      END\n", a="      INTEGER X\n")
        unit = file.units[0]
        included = unit.specification[0]
        assert isinstance(included, Written)
        self.assertEqual((included.item.text, included.item.first), ("INTEGER X", 1))
        self.assertEqual([Path(path).name for path in (included.item.file, *unit.files)], ["a.inc", "a.inc"])
        self.assertEqual((unit.faults, unit.first_line, unit.last_line), ((), 1, 4))
        self.assertEqual([Path(path).name for path in file.included], ["a.inc"])

    def test_folders(self) -> None:
        file = self.read("      INCLUDE 'far.inc'\n      END\n")
        self.assertEqual((file.units[0].faults, len(file.included)), ((), 1))

    def test_file_that_is_not_found(self) -> None:
        file = self.read("      SUBROUTINE S\n      INCLUDE 'b.inc'\n      END\n      SUBROUTINE T\n      END\n")
        self.assertEqual([reasons(unit) for unit in file.units], [[("include", 2)], []])
        self.assertEqual(file.marks[0].kind, "include")

    def test_contained_procedures_want_their_host_s_files(self) -> None:
        file = self.read(
            "      MODULE M\n      INCLUDE 'b.inc'\n      CONTAINS\n      SUBROUTINE T\n      END\n      END\n",
        )
        self.assertEqual([reasons(unit) for unit in file.all_units()], [[("include", 2)]] * 2)

    def test_file_in_a_loop(self) -> None:
        text = "      DO 10 I = 1, N\n      INCLUDE 'a.inc'\n!$    X = 1\n   10 CONTINUE\n!$    Y = 1\n      END\n"
        file = self.read(text, a="C\nC\nC\nC\nC\n!$    Z = 1\n      B(I) = 1\n")
        loop, = file.units[0].loops()
        self.assertEqual((loop.first_line, loop.last_line), (1, 4))
        self.assertEqual([mark.text.split()[1] for mark in file.marks_of(loop)], ["X", "Z"])

    def test_files_in_types_and_interfaces(self) -> None:
        file = self.read("      MODULE M\n      TYPE T\n      INCLUDE 'b.inc'\n      END TYPE\n      END\n")
        self.assertEqual(reasons(file.units[0]), [("include", 3)])

    def test_file_that_includes_itself(self) -> None:
        file = self.read("      INCLUDE 'a.inc'\n      END\n", a="      INCLUDE 'a.inc'\n")
        self.assertEqual([fault.reason for fault in file.units[0].faults], ["include"])

    def test_preprocessor_in_an_included_file(self) -> None:
        file = self.read("      INCLUDE 'a.inc'\n      END\n", a="#ifdef X\n      REAL Y\n#endif\n")
        self.assertEqual([fault.reason for fault in file.units[0].faults], ["preprocessor"])
