"""Symbols of texts that the library reads: what names stand for follows from the Fortran standard."""

import tempfile
import unittest
from pathlib import Path
from typing import List, Tuple

from ..real import tree
from ..real.blocks import read_file
from ..real.constants import wide_part
from ..real.roles import Roles
from ..real.symbols import Scopes, Storage, Symbols


def symbols(text: str, name: str = "p.f90") -> List[Symbols]:
    """The symbols of all units of a text."""
    file = read_file(name, text)
    scopes = Scopes(file.all_units())
    return [scopes.of(unit) for unit in file.all_units()]


def fixed(*statements: str) -> Symbols:
    """The symbols of the first unit of a file in fixed form."""
    return symbols("".join(f"      {statement}\n" for statement in statements), "p.f")[0]


class LowerBounds(unittest.TestCase):
    def test_shapes(self) -> None:
        """A lower bound that isn't written is 1, but for a deferred shape: ALLOCATE and pointers choose it."""
        found = symbols("""
subroutine s(a, b, c, d)
  real a(:), b(0:), c(*)
  real, pointer :: d(:, :)
  allocatable e(:)
  pointer f
  dimension f(:)
  real, allocatable :: g(:)
  real :: h(5)
  target h
  type t
    real, allocatable :: x(:)
    real :: y(3)
  end type
  type(t) :: v
  d(1, 1) = a(1)
end
""")[0]
        wanted = {
            "A": ((1, None),), "B": ((0, None),), "C": ((1, None),), "D": ((None, None), (None, None)),
            "E": ((None, None),), "F": ((None, None),), "G": ((None, None),), "H": ((1, 5),),
        }
        self.assertEqual({name: found.get(name).extents for name in wanted}, wanted)
        known = found.components(found.get("V"))
        assert known is not None
        extents = [known.components[name].extents for name in "XY"]
        self.assertEqual(extents, [((None, None),), ((1, 3),)])


class FixedForm(unittest.TestCase):
    def test_declarations(self) -> None:
        found = fixed(
            "SUBROUTINE WORK(A, B, N, LDA)", "IMPLICIT DOUBLE PRECISION (A-H, O-Z)",
            "PARAMETER (NB = 2*8, MB = NB/3, TWO = 2)",
            "DIMENSION A(LDA, *), B(NB), W(0:NB)", "COMMON /BLK/ X, Y(3)", "COMMON Z",
            "EQUIVALENCE (Y(2), V), (Q(1), R)",
            "REAL Q(5), R*8", "EXTERNAL FUN", "DATA T /1.0/, (W(I), I=1,3) /3*0.0/", "F(S) = S*2 + X", "DO I = 1, N",
            "A(I,1) = F(B(I)) + FUN(I)", "END DO", "END",
        )
        self.assertEqual(found.get("A").extents, ((1, None), (1, None)))
        self.assertEqual([found.get(name).extents for name in "BWQ"], [((1, 16),), ((0, 16),), ((1, 5),)])
        self.assertEqual([found.get(name).kind for name in "AXQRI"], [8, 8, 4, 8, 4])
        self.assertEqual([found.constant(tree.Name(name)) for name in ("NB", "MB", "TWO", "N")], [16, 5, None, None])
        wanted = {"X": "/BLK/", "Y": "/BLK/", "Z": "//", "V": "", "Q": ""}
        self.assertEqual({name: found.get(name).block for name in wanted}, wanted)
        self.assertEqual([found.get(name).storage for name in "XV"], [Storage.COMMON, Storage.COMMON])
        self.assertEqual(len({found.get(name).group for name in "XYV"}), 1)
        self.assertEqual(found.get("Q").group, found.get("R").group)
        self.assertEqual((found.get("Z").group, found.get("W").group), ("", ""))
        self.assertEqual(list(found.statement_functions), ["F"])
        self.assertEqual(found.faults, ())

    def test_data(self) -> None:
        found = fixed("SUBROUTINE S", "REAL W(9)", "DATA T /1.0/, ((W(I*J), I=1,2), J=1,3) /6*0.0/, K, L /2*5/", "END")
        saved = [name for name in "TWKLIJ" if "SAVE" in found.get(name).attributes]
        self.assertEqual(saved, ["T", "W", "K", "L"])

    def test_integers_of_8_bytes(self) -> None:
        """Bounds in 8 bytes aren't those of ped."""
        found = fixed("SUBROUTINE S(A, N)", "INTEGER*8 N, K*4", "INTEGER M*8", "REAL A(*)", "END")
        self.assertEqual([found.get(name).kind for name in "NKM"], [8, 4, 8])
        for expression, wide in [(tree.Name("N"), True), (tree.Name("M"), True), (tree.Name("K"), False)]:
            self.assertEqual(wide_part(expression, found) is not None, wide)

    def test_an_include_that_is_not_found(self) -> None:
        found = fixed("SUBROUTINE S", "INCLUDE 'sizes.inc'", "A(1) = 2", "END")
        self.assertEqual([(fault.reason, fault.line) for fault in found.faults][:1], [("include", 2)])

    def test_an_include_that_is_found(self) -> None:
        with tempfile.TemporaryDirectory() as folder:
            Path(folder, "sizes.inc").write_text("      PARAMETER (N = 7)\n      INTEGER*8 K\n")
            text = "      SUBROUTINE S\n      INCLUDE 'sizes.inc'\n      REAL A(N)\n      END\n"
            found = symbols(text, str(Path(folder, "p.f")))[0]
        self.assertEqual((found.faults, found.get("A").extents, found.get("K").kind), ((), ((1, 7),), 8))

    def test_cray_pointers(self) -> None:
        found = fixed("SUBROUTINE S(A)", "REAL A(10), B", "POINTER (IP, B(10))", "IP = LOC(A(2))", "END")
        self.assertTrue(found.get("B").is_pointer)
        self.assertEqual(found.get("B").extents, ((1, 10),))
        self.assertIn("CRAY POINTER", found.get("IP").attributes)

    def test_an_array_with_the_name_of_an_intrinsic_function(self) -> None:
        found = fixed("SUBROUTINE S(INDEX)", "INTEGER INDEX(10)", "REAL ABS", "END")
        self.assertEqual([found.is_intrinsic(name) for name in ("INDEX", "ABS", "SQRT")], [False, True, True])
        self.assertEqual(found.get("INDEX").rank, 1)


_MODULE = """
module grids
  use, intrinsic :: iso_fortran_env, only: wp => real64, i8 => int64
  implicit none
  private
  public :: wp, grid, u, n, solve
  integer, parameter :: n = 10, secret = 3
  type :: point
    real(wp) :: x, y
    real(wp), pointer :: p(:) => null()
  end type
  type, extends(point) :: grid
    integer(i8) :: m(n, secret)
    integer :: k
  end type
  real(wp), allocatable, target :: u(:,:)
  enum, bind(c)
    enumerator :: red, green = 5, blue
  end enum
  interface solve
    module procedure solve_a
  end interface
contains
  subroutine solve_a(v)
    real(wp), intent(in) :: v(:)
    type(grid) :: g(5)
    u(1,1) = v(1) + g(2)%m(1,1)
  end subroutine
end module
program main
  use grids, only: k => n, grid, wp
  type(grid) :: g
  real(wp) :: t, own
  t = 0
  call inner
contains
  subroutine inner
    real :: own
    t = t + k
    i = 1
  end subroutine
end program
"""


class FreeForm(unittest.TestCase):
    def setUp(self) -> None:
        self.module, self.procedure, self.main, self.inner = symbols(_MODULE)

    def test_the_module(self) -> None:
        self.assertEqual(
            {name: self.module.constant(tree.Name(name)) for name in ("RED", "GREEN", "BLUE", "N", "WP")},
            {"RED": 0, "GREEN": 5, "BLUE": 6, "N": 10, "WP": 8},
        )
        u = self.procedure.get("U")
        self.assertEqual((u.storage, u.kind, u.rank, u.is_pointer), (Storage.MODULE, 8, 2, True))
        self.assertEqual(self.procedure.get("V").kind, 8)
        self.assertIs(self.procedure.get("SOLVE").storage, Storage.PROCEDURE)

    def test_components(self) -> None:
        g = tree.Reference(tree.Name("G"), (tree.Literal("INTEGER", "2"),))
        wanted: List[Tuple[str, str, int]] = [("M", "INTEGER", 8), ("K", "INTEGER", 4), ("X", "REAL", 8)]
        for name, type_, kind in wanted:
            component = tree.Component(g, name)
            self.assertEqual(self.procedure.type_and_kind_of_component(component), (type_, kind))
            self.assertEqual(wide_part(component, self.procedure) is not None, name == "M")
        pointer = self.procedure.designated(tree.Component(g, "P"))
        assert pointer is not None
        self.assertTrue(pointer.is_pointer)
        self.assertEqual(self.procedure.type_and_kind_of_component(tree.Component(g, "NOTHING")), ("", None))
        # The type's own name is seen in the main program, and those in it are the module's.
        self.assertEqual(self.main.type_and_kind_of_component(tree.Component(tree.Name("G"), "M")), ("INTEGER", 8))

    def test_the_main_program(self) -> None:
        self.assertEqual((self.main.constant(tree.Name("K")), self.main.constant(tree.Name("N"))), (10, None))
        self.assertEqual([name for name in ("T", "OWN", "G") if self.main.get(name).is_reached_by_calls], ["T"])
        self.assertEqual((self.main.get("U").storage, self.main.get("SECRET").storage), (Storage.LOCAL, Storage.LOCAL))

    def test_the_contained_procedure(self) -> None:
        self.assertEqual([self.inner.get(name).storage for name in ("T", "I", "OWN")], [
            Storage.HOST, Storage.LOCAL, Storage.LOCAL,
        ])
        self.assertEqual(self.inner.constant(tree.Name("K")), 10)


class TypesOfOneName(unittest.TestCase):
    """A variable's type is looked for where the variable is declared, not where it is used."""

    def test_a_type_of_the_unit_and_one_of_a_module(self) -> None:
        module, user = symbols("""
module m
  type t
    real, pointer :: p
  end type
  type(t) :: v
end module
subroutine s
  use m, only: v
  type t
    real :: p
  end type
  type(t) :: w
  w%p = v%p
end subroutine
""")
        self.assertEqual(user.get("V").derived, user.get("W").derived)
        pointers = []
        for name in ("V", "W"):
            component = user.designated(tree.Component(tree.Name(name), "P"))
            assert component is not None
            pointers.append(component.is_pointer)
        self.assertEqual(pointers, [True, False])
        troubles = [Roles(user).structure_trouble(tree.Component(tree.Name(name), "P")) for name in ("V", "W")]
        self.assertEqual([trouble and trouble.reason for trouble in troubles], ["pointer", None])
        self.assertEqual(module.get("V").kind, None)


class Operators(unittest.TestCase):
    """Between intrinsic types an operator of the user's calls a procedure that may do anything."""

    def reasons(self, interface: str, procedure: str, index: int = -2) -> List[str]:
        """The reasons for which a unit is refused: S, which uses the module, or another by its index."""
        found = symbols(f"""
module m
  type t
    real :: x
  end type
  interface {interface}
    {procedure}
  end interface
contains
  logical function add(a, b)
    logical, intent(in) :: a, b
    add = a .and. b
  end function
  type(t) function add_t(a, b)
    type(t), intent(in) :: a
    real, intent(in) :: b
    add_t%x = a%x + b
  end function
  subroutine from_text(i, c)
    integer, intent(out) :: i
    character(*), intent(in) :: c
    i = ichar(c(1:1))
  end subroutine
end module
subroutine s
  use m
end subroutine
subroutine other
end subroutine
""")
        self.assertIs(found[4].get("T").storage, Storage.TYPE)
        self.assertEqual(found[5].faults, ())
        return [fault.reason for fault in found[index].faults]

    def test_intrinsic_types(self) -> None:
        for interface, procedure in [
            ("operator(+)", "module procedure add"), ("operator (.and.)", "module procedure add_t, add"),
            ("operator(==)", "procedure add"), ("assignment(=)", "module procedure from_text"),
            ("operator(+)", "module procedure unheard_of"),
        ]:
            with self.subTest(interface=interface, procedure=procedure):
                self.assertEqual(self.reasons(interface, procedure), ["function"])
                self.assertEqual(self.reasons(interface, procedure, 1), ["function"])

    def test_structures(self) -> None:
        for interface in ("operator(+)", "assignment(=)"):
            self.assertEqual(self.reasons(interface, "module procedure add_t"), [])
        self.assertEqual(self.reasons("operator(.plus.)", "module procedure add"), [])
        self.assertEqual(self.reasons("plus", "module procedure add"), [])


class OtherNames(unittest.TestCase):
    def test_a_broken_declaration_is_told(self) -> None:
        found = symbols("subroutine s\nreal :: :: a\ndo i = 1, 9\na(i) = 1\nend do\nend\n")[0]
        self.assertIn(("parse", 2), [(fault.reason, fault.line) for fault in found.faults])

    def test_coarrays(self) -> None:
        found = symbols("subroutine s\nreal :: a(9)[*]\nend\n")[0]
        is_told = "CODIMENSION" in found.get("A").attributes or bool(found.faults)
        self.assertTrue(is_told)

    def test_names_of_associate_and_block(self) -> None:
        text = """
subroutine s(a)
  real a(9)
  do i = 1, 9
  end do
  associate (b => a)
    do i = 1, 9
      b(i) = 1
    end do
  end associate
  block
    integer(8) n
    n = 5
    do i = 1, n
    end do
  end block
end
"""
        found = symbols(text)[0]
        blocks = [found.block_round(loop.head) for loop in found.unit.loops()]
        self.assertEqual([None if block is None else block.kind for block in blocks], [None, "ASSOCIATE", "BLOCK"])
        self.assertEqual(found.get("N").kind, 4)


if __name__ == "__main__":
    unittest.main()
