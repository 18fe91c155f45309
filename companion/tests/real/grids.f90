! Structures, generic names and variables of a module that the loops' units don't name.
module shapes
  implicit none
  integer, parameter :: n = 40
  type point
    real :: x = 0, y = 0
  end type point
  type grid
    integer :: size = n
    real :: h = 0.5
    real :: u(n, n) = 0, f(n, n) = 0
    type(point) :: corner, mark(n)
  end type grid
  type, extends(point) :: mass
    real :: weight = 1
  end type mass
  interface put
    module procedure put_number, put_point, put_row
  end interface put
  real, private :: field(n, n) = 1
  real :: total = 0
contains
  subroutine put_number(x, k)
    real, intent(out) :: x
    integer, intent(in) :: k
    x = k
  end subroutine put_number

  subroutine put_point(p, k)
    type(point), intent(inout) :: p
    integer, intent(in) :: k
    p%x = k
    p%y = p%y + 1
  end subroutine put_point

  subroutine put_row(a, k)
    real, intent(inout) :: a(:)
    integer, intent(in) :: k
    integer :: i
    do i = 1, size(a)                        != parallel
      a(i) = a(i) + k*i
    end do
  end subroutine put_row

  pure real function norm(p)
    type(point), intent(in) :: p
    norm = abs(p%x) + abs(p%y)
  end function norm

  subroutine sweep(j)
    integer, intent(in) :: j
    integer :: i
    do i = 2, n - 1                          != parallel
      field(i, j) = field(i, j) + 1
    end do
  end subroutine sweep

  subroutine relax(g, j)
    type(grid), intent(inout) :: g
    integer, intent(in) :: j
    integer :: i
    do i = 2, g%size - 1                     != parallel
      g%u(i, j) = (g%f(i-1, j) + g%f(i+1, j))*g%h
    end do
  end subroutine relax

  subroutine count_all(x)
    real, intent(in) :: x
    total = total + x
  end subroutine count_all

  real function row_sum(j)
    integer, intent(in) :: j
    row_sum = sum(field(:, j))
  end function row_sum
end module shapes

program grids
  use shapes, only: grid, point, mass, put, norm, sweep, relax, count_all, row_sum, n, sum1 => total
  implicit none
  type(grid) :: g
  type(point) :: p(n), q
  type(mass) :: m(n)
  real :: a(n), s
  integer :: i, j

  do i = 1, n                                != parallel
    p(i)%x = i
    p(i)%y = n - i
    m(i)%weight = 2*i
    m(i)%point%x = i
  end do
  do i = 2, n                                != parallel
    p(i)%x = p(i-1)%y
  end do
  do i = 2, n                                != carries P%X
    p(i)%x = p(i-1)%x + p(i)%y
  end do
  do i = 2, n                                != carries M%X
    m(i)%x = m(i-1)%point%x + m(i)%weight
  end do
  do j = 1, g%size                           != parallel
    do i = 1, g%size                         != parallel
      g%f(i, j) = p(i)%x*g%h
    end do
  end do
  do j = 1, n                                != parallel
    call relax(g, j)
  end do
  do j = 1, n                                != parallel
    call sweep(j)
  end do
  do i = 1, n                                != parallel
    call put(a(i), i)
  end do
  do i = 1, n                                != parallel
    call put(p(i), i)
  end do
  do i = 1, n                                != carries G%CORNER%X, G%CORNER%Y
    call put(g%corner, i)
  end do
  do j = 1, n                                != parallel
    call put(g%u(:, j), j)
  end do
  do i = 1, n                                != parallel
    g%mark(i) = p(n+1-i)
  end do
  do i = 1, n                                != carries Q%X, Q%Y
    q = p(i)
    a(i) = q%x
  end do
  s = 0
  do i = 1, n                                != parallel
    s = s + norm(g%mark(i)) + norm(point(a(i), 1.0))
  end do
  do i = 1, n                                != carries SUM1
    call count_all(a(i))
  end do
  do j = 1, n                                != parallel
    a(j) = row_sum(j)
  end do
  print '(4f16.4)', s, sum1, sum(a), sum(g%u)
  print '(4f16.4)', sum(p%x), sum(p%y), sum(m%x), g%corner%y
end program grids
