! Free form: modules, types, sections, WHERE, FORALL, SELECT, named DOs, contained procedures.
module grids
  use, intrinsic :: iso_fortran_env, only: int64, wide => real64
  implicit none
  private
  public :: grid, smooth, operator(+)
  integer, parameter :: n_max = 16, kinds(2) = [kind(1.0), kind(1.0d0)]
  type :: point
    real(wide) :: x = 0.0_wide, y
    integer, pointer :: next(:) => null()
  end type point
  type, extends(point) :: grid
    real(wide), allocatable, dimension(:,:) :: cells
  contains
    procedure :: total => total_of
  end type grid
  interface operator(+)
    module procedure added
  end interface
  abstract interface
    pure function map(x) result(y)
      import :: wide
      real(wide), intent(in) :: x
      real(wide) :: y
    end function map
  end interface
  integer(int64), save :: calls = 0_int64
contains
  elemental function added(a, b) result(c)
    type(point), intent(in) :: a, b
    type(point) :: c
    c = point(a%x + b%x, a%y + b%y)
  end function added

  real(wide) function total_of(self)
    class(grid), intent(in) :: self
    total_of = sum(self%cells(:, 1)) + sum(self%cells(:, 2:), mask=self%cells(:, 2:) > 0)
  end function total_of

  subroutine smooth(u, v, n, m, names, rate)
    integer, intent(in) :: n, m
    real(wide), dimension(0:n+1, 0:m+1), intent(inout) :: u
    real(wide), intent(out) :: v(n, *)
    character(len=*), intent(in) :: names(:)
    real(wide), optional :: rate
    real(wide) :: change, row(n)
    logical :: mask(n, m)
    character(len=:), allocatable :: text
    integer :: i, j, k
    namelist /options/ i, j
    change = 0; mask = .false.
    outer: do j = 1, m
      inner: do i = 1, n
        if (mask(i, j)) cycle inner
        v(i, j) = 0.25_wide * (u(i-1, j) + u(i+1, j) & ! neighbours, it's
          & + u(i, j-1) + u(i, j+1))
        change = max(change, abs(v(i, j) - u(i, j)))
        if (change > 1.0e3_wide) exit outer
      end do inner
    end do outer
    where (mask) u(1:n, 1:m) = 0
    where (u(1:n, 1:m) > 1)
      u(1:n, 1:m) = 1
    elsewhere (mask)
      u(1:n, 1:m) = -1
    elsewhere
      mask = .true.
    end where
    forall (i = 1:n, j = 1:m, i /= j) mask(i, j) = i < j
    forall (i = 1:n)
      row(i) = u(i, 1)
    end forall
    do concurrent (i = 1:n, k = 1:m:2, .not. mask(i, k))
      u(i, k) = row(i)
    end do
    select case (n)
    case (:0)
      return
    case (1, 3:5)
      row = [(real(i, wide), i = 1, n)]
    case default
      allocate (character(len=3) :: text)
      text = 'a;b' // "it's" // names(1)(1:2)
    end select
    do
      k = k + 1
      if (k > 10) exit
    end do
    do while (k > 0)
      k = k - merge(1, 2, k > 2)
    end do
    associate (first => u(1, 1), rest => u(2:, :))
      first = sum(rest)
    end associate
    block
      integer :: local
      local = 3
      calls = calls + local
    end block
    if (present(rate)) then; rate = change; else if (n > 3) then; row = 0; end if
    call inside(row)
  contains
    recursive subroutine inside(a)
      real(wide), intent(inout), target :: a(:)
      real(wide), pointer :: p(:)
      p => a(1:size(a):2)
      p = p + 1
      nullify (p)
      if (size(a) < 3) call inside(a(2:))
    end subroutine inside
  end subroutine smooth
end module grids

program main
  use grids, only: smooth
  implicit none
  integer :: i
  real(8) :: u(0:4, 0:4) = 1, v(3, 3)
  enum, bind(c)
    enumerator :: red = 1, green
  end enum
  call smooth(u, v, 3, 3, ['one', 'two'], rate=u(1, 1))
  print '(3f8.3)', (v(i, 1), i = 1, 3)
  write (*, *) 'done & dusted', red
  if (u(1, 1) > 5) error stop 'too large'
end program main
