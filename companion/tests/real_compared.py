"""Symbols compared with those of gfortran, which reads the same text by itself."""

import re
import shutil
import subprocess
import tempfile
import unittest
from dataclasses import dataclass, field
from pathlib import Path
from typing import Dict, FrozenSet, List, Optional, Tuple

from ..real import tree
from ..real.blocks import read_file
from ..real.symbols import Scopes, Storage, Symbol, Symbols

_UNIT = re.compile(r" *procedure name = (\S+)")
_NAME = re.compile(r" *symtree: '([^']+)' *\|\| symbol: '([^']+)'")
_TYPE = re.compile(r" *type spec : \((.*)\)")
_ATTRIBUTES = re.compile(r" *attributes: \(([A-Z-]+)(.*)\)")
_BOUNDS = re.compile(r" *Array spec:\((\d+) \[\d+\] \S+ (.*)\)")
_VALUE = re.compile(r" *value: (-?\d+)(?:_\d+)?$")


@dataclass
class Told:
    """What gfortran says of a name."""

    type: str = ""
    flavor: str = ""
    attributes: FrozenSet[str] = frozenset()
    bounds: List[str] = field(default_factory=list)
    rank: int = 0
    value: Optional[int] = None
    #: The names of its EQUIVALENCE.
    equivalent: FrozenSet[str] = frozenset()


def told_by_gfortran(name: str, text: str) -> Dict[str, Dict[str, Told]]:
    """The names of each unit, as gfortran has them."""
    with tempfile.TemporaryDirectory() as folder:
        Path(folder, name).write_text(text)
        words = ["gfortran", "-std=legacy", "-fcray-pointer", "-fdump-parse-tree", "-fsyntax-only", name]
        result = subprocess.run(
            words, cwd=folder, stdout=subprocess.PIPE, stderr=subprocess.STDOUT, universal_newlines=True, check=False,
        )
    if result.returncode:
        raise RuntimeError(result.stdout)
    found: Dict[str, Dict[str, Told]] = {}
    one = Told()
    names: Dict[str, Told] = {}
    for line in result.stdout.splitlines():
        unit, here = _UNIT.match(line), _NAME.match(line)
        if line.startswith("Namespace:"):
            names = {}
        elif unit is not None:
            # With an ENTRY a function FUN is `master.0.fun`.
            names = found.setdefault(unit.group(1).upper().rpartition(".")[2], {})
        elif here is not None:
            one = names[here.group(1).upper()] = Told()
        elif line.startswith("  Equivalence: "):
            group = frozenset(name.upper() for name in re.findall(r":(\w+)", line.partition(": ")[2]))
            for name in group:
                names[name].equivalent |= group
        else:
            _take(one, line)
    return found


def _take(one: Told, line: str) -> None:
    for pattern in (_TYPE, _ATTRIBUTES, _BOUNDS, _VALUE):
        match = pattern.match(line)
        if match is None:
            continue
        if pattern is _TYPE:
            one.type = match.group(1)
        elif pattern is _ATTRIBUTES:
            one.flavor, one.attributes = match.group(1), frozenset(match.group(2).split())
        elif pattern is _BOUNDS:
            one.rank, one.bounds = int(match.group(1)), match.group(2).split()
        else:
            one.value = int(match.group(1))


_KINDS = """
module kinds
  use, intrinsic :: iso_fortran_env, only: wp => real64, i8 => int64
  implicit none
  integer, parameter :: sp = selected_real_kind(6, 30), ik = selected_int_kind(12), n = 3*4, neg = -7/2, big = huge(1)
  integer(ik), parameter :: wide = 2_ik**40
  integer, parameter :: tab(3) = [1, 2, 3], md = mod(-7, 3), mx = max(3, n, -1), pw = (-2)**3, q = 7/(-2), r = -n + 2**5
  integer, parameter :: b1 = bit_size(n), k1 = kind(1.0d0), k2 = kind(wide), a1 = abs(neg), i1 = int(17) - mod(17, -5)
  real(wp) :: grid(0:n, -n:n)
  real(sp), save :: s
  integer, private :: hidden = 4
  complex(wp) :: z
  logical(1) :: flag
  character(len=12), allocatable :: names(:)
  type t
    integer :: i
  end type
contains
  function area(r) result(a)
    real(wp), intent(in) :: r
    real(wp) :: a
    a = r*grid(1,1)
  end function
  subroutine inner_host(x, k, o)
    real, intent(inout) :: x(:, 2:)
    integer, value :: k
    integer, optional :: o
    integer :: local, cap
    volatile :: cap
    data local /3/
    cap = k
    call deep
  contains
    subroutine deep
      integer :: local
      local = 1
      cap = local + k
    end subroutine
  end subroutine
end module
program main
  use kinds, only: g => grid, wp, n, t, m => mx
  implicit real(wp) (a-h), integer(8) (i)
  type(t) :: v(n)
  dimension arr(n, m)
  pointer :: p
  target :: q
  external ext
  intrinsic sin
  parameter (pi = 3.14159, iconst = 12)
  common /blk/ c1, c2(4)
  equivalence (c2(2), e1), (x1, x2)
  save x3
  f(y) = y + c1
  b = f(1.0)
  call ext(sin, arr, i1, i2)
  print *, b, g, v%i, j, x1, x2, x3, p, q, e1, iconst
end program
"""

_OLD = """\
      SUBROUTINE WORK(A, B, N, LDA, *)
      IMPLICIT DOUBLE PRECISION (A-H, O-Y), COMPLEX*16 (Z)
      PARAMETER (NB = 2*8, MB = NB/3, TWO = 2, K8 = 8)
      DIMENSION A(LDA, *), B(NB), W(0:NB), IDX(-NB:MB)
      INTEGER*8 LONG, N2(5)
      INTEGER*2 SHORT
      COMMON /BLK/ X, Y(3)
      COMMON V2, V3
      EQUIVALENCE (Y(2), V), (Q(1), R), (W(3), U)
      REAL Q(5)
      REAL*8 R
      CHARACTER*8 C, D*4
      LOGICAL*1 FLAG
      POINTER (IP, PT(10))
      DATA T /1.0/, (IDX(I), I=1,3) /3*0/
      EXTERNAL FUN
      F(S) = S*2 + X
   10 FORMAT (I5)
      DO 20 I = 1, N
        A(I,1) = F(B(I)) + FUN(I) + PT(1) + Z
        LONG = N2(1) + SHORT + IDX(1)
   20 CONTINUE
      RETURN 1
      END
      INTEGER FUNCTION COUNTS(X, N)
      REAL X(N)
      SAVE
      COUNTS = 0
      DO 10 J = 1, N
        IF (X(J) .GT. 0.0) COUNTS = COUNTS + 1
   10 CONTINUE
      LAST = COUNTS
      END
"""

_MORE = """
module base
  implicit none
  private
  public :: point, line, red, green, blue, shift, total, make, wp
  integer, parameter :: wp = kind(0d0)
  type, abstract :: shape
    integer :: id = 0
  end type
  type, extends(shape) :: point
    real(wp) :: x, y
  contains
    procedure :: norm => point_norm
  end type
  type line
    type(point) :: ends(2)
    real(wp), allocatable :: w(:)
  end type
  enum, bind(c)
    enumerator :: red = 4, green
    enumerator blue
  end enum
  interface make
    module procedure make_point, make_line
  end interface
  real, protected :: shift = 1.0
  double complex, dimension(3, 0:4), target :: total
contains
  pure function point_norm(this) result(r)
    class(point), intent(in) :: this
    real(wp) :: r
    r = sqrt(this%x**2 + this%y**2)
  end function
  type(point) function make_point(x)
    real(wp), intent(in) :: x
    make_point%x = x
  end function
  function make_line(p, q) result(l)
    type(point), intent(in) :: p, q
    type(line) :: l
    l%ends(1) = p; l%ends(2) = q
  end function
end module
subroutine user(a, b, c, n, name, p, f)
  use base, pt => point, all => total
  implicit double precision (a-h, o-z)
  integer, intent(in) :: n
  dimension a(n), b(n, *)
  intent(inout) a
  optional c
  character*(*) name
  character(len=n) :: scratch, other*4, list(5)*7
  real, dimension(10), save :: d, e(5), g(-1:1, blue)
  real, pointer :: p(:)
  allocatable h(:, :)
  real, external :: f
  integer(kind=selected_int_kind(4)) small
  integer, parameter :: sizes(2) = (/ 1, 2 /), k = blue + green*2, j8 = 3_8 + k
  logical :: ok
  interface
    subroutine ext(z, m)
      real z(m)
      integer m
    end subroutine
  end interface
  type(pt) :: here
  class(line), allocatable :: moving
  procedure(ext), pointer :: pf
  volatile :: v
  namelist /group/ v, ok
  data u, (d(i), i = 1, 3) /1.0, 3*2.0/
  s(t) = t*v
  x = s(1d0) + f(1.0) + all(1, 1) + k + small + here%x
  ii = n
  scratch = name
  associate (zz => x)
    x = zz + u
  end associate
end subroutine
integer*2 function odd(i)
  integer*8 i
  complex*8 cc, dd
  integer*2 even
  entry even(i)
  odd = 1
end function
recursive subroutine host(m)
  dimension work(m)
  common /blk/ q1, q2
  save /blk/
  work(1) = q1
  call inner(work)
contains
  subroutine inner(work)
    real(4) :: work(*)
    common /blk/ r1(2)
    local = m
    work(1) = r1(1) + q2
  end subroutine
end subroutine
block data
  common /blk/ q1, q2
  data q1 /1.0/
end block data
"""

_SAME = ("POINTER", "TARGET", "ALLOCATABLE", "OPTIONAL", "VALUE", "VOLATILE")


@unittest.skipUnless(shutil.which("gfortran"), "gfortran isn't there, so no symbols are compared with its own")
class Compared(unittest.TestCase):
    def compare(self, name: str, text: str) -> int:
        """Compares all variables and constants of a text, and says how many there were."""
        told = told_by_gfortran(name, text)
        file = read_file(name, text)
        scopes = Scopes(file.all_units())
        compared = 0
        for unit in file.all_units():
            symbols = scopes.of(unit)
            self.assertEqual(symbols.faults, ())
            for variable, one in told.get(unit.name, {}).items():
                if one.flavor in ("VARIABLE", "PARAMETER") and not variable.startswith("_"):
                    with self.subTest(unit=unit.name, name=variable):
                        self.compare_one(symbols, variable, one)
                    compared += 1
        return compared

    def compare_one(self, symbols: Symbols, name: str, one: Told) -> None:
        symbol = symbols.get(name)
        self.assertEqual((symbol.type, symbol.kind), self.type_of(one.type))
        self.assertEqual(symbol.storage is Storage.CONSTANT, one.flavor == "PARAMETER")
        self.assertEqual(symbol.rank, one.rank)
        if symbol.type == "INTEGER" and one.flavor == "PARAMETER" and not one.rank:
            self.assertEqual(symbols.constant(tree.Name(name)), one.value)
        self.compare_bounds(symbol, one)
        self.assertEqual("DUMMY" in symbol.attributes, any(word.startswith("DUMMY") for word in one.attributes))
        # gfortran keeps the attributes of a CLASS in a part of it.
        for word in _SAME if symbol.type != "CLASS" else ():
            self.assertEqual(word in symbol.attributes, word in one.attributes, word)
        self.assertEqual(symbol.storage is Storage.COMMON, "IN-COMMON" in one.attributes)
        if one.equivalent:
            self.assertEqual({symbols.get(other).group for other in one.equivalent}, {symbol.group})
            self.assertNotEqual(symbol.group, "")
        if "EXPLICIT-SAVE" in one.attributes and one.flavor == "VARIABLE":
            self.assertIn("SAVE", symbol.attributes)
        self.assertEqual("CRAY POINTEE" in symbol.attributes, "CRAY-POINTEE" in one.attributes)

    @staticmethod
    def type_of(told: str) -> Tuple[str, Optional[int]]:
        words = told.split()
        if words[0] in ("DERIVED", "CLASS"):
            return words[0].replace("DERIVED", "TYPE"), None
        return words[0], int(words[-1])

    def compare_bounds(self, symbol: Symbol, one: Told) -> None:
        """Bounds that are numbers; gfortran prints `()` where there is none."""
        if len(one.bounds) != 2 * one.rank:
            return
        bounds = [bound for extent in symbol.extents for bound in extent]
        for own, other in zip(bounds, one.bounds):
            if re.fullmatch(r"-?\d+(_\d)?", other):
                self.assertEqual(own, int(other.split("_")[0]))

    def test_free_form(self) -> None:
        self.assertGreater(self.compare("p.f90", _KINDS), 40)

    def test_further_declarations(self) -> None:
        self.assertGreater(self.compare("p.f90", _MORE), 50)

    def test_fixed_form(self) -> None:
        self.assertGreater(self.compare("p.f", _OLD), 30)


if __name__ == "__main__":
    unittest.main()
