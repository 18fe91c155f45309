! A sparse matrix by rows: how it is built, products, a relaxation, a colouring, permutations.
module rows
  implicit none
  integer, parameter :: n = 60
  integer :: first(n + 1), column(4*n)
  real :: value(4*n)
contains
  subroutine build
    integer :: i, k, d
    k = 0
    do i = 1, n                              != carries COLUMN, K, VALUE
      first(i) = k + 1
      do d = -2, 3                           != carries COLUMN, K, VALUE
        if (abs(d) == 1 .or. i + d < 1 .or. i + d > n) cycle
        k = k + 1
        column(k) = i + d
        value(k) = 1.0/(1 + abs(d))
      end do
    end do
    first(n + 1) = k + 1
  end subroutine build

  subroutine products(x, y, z)
    real, intent(in) :: x(n)
    real, intent(inout) :: y(n), z(n)
    integer :: i, k
    real :: s
    do i = 1, n                              != parallel
      s = 0
      do k = first(i), first(i + 1) - 1      != parallel
        s = s + value(k)*x(column(k))
      end do
      y(i) = s
    end do
    do i = 1, n                              != carries Z
      do k = first(i), first(i + 1) - 1      != carries Z
        z(column(k)) = z(column(k)) + value(k)*x(i)
      end do
    end do
  end subroutine products

  subroutine relax(b, x)
    real, intent(in) :: b(n)
    real, intent(inout) :: x(n)
    real :: diagonal(n), s
    integer :: i, k
    do i = 1, n                              != parallel
      diagonal(i) = 0
      do k = first(i), first(i + 1) - 1      != carries DIAGONAL
        if (column(k) == i) diagonal(i) = value(k)
      end do
    end do
    do i = 1, n                              != carries X
      s = b(i)
      do k = first(i), first(i + 1) - 1      != parallel
        if (column(k) /= i) s = s - value(k)*x(column(k))/8
      end do
      x(i) = s/diagonal(i)
    end do
  end subroutine relax

  ! The colours of a row's neighbours are noted in an array, and no array is private.
  subroutine paint(colour)
    integer, intent(inout) :: colour(n)
    logical :: used(6)
    integer :: i, k, c
    do i = 1, n                              != carries COLOUR, USED
      used = .false.
      do k = first(i), first(i + 1) - 1      != carries USED
        if (column(k) < i) used(colour(column(k))) = .true.
      end do
      do c = 1, 5                            != refused exit
        if (.not. used(c)) exit
      end do
      colour(i) = c
    end do
  end subroutine paint
end module rows

program main
  use rows
  implicit none
  integer :: i, order(n), inverse(n), colour(n) = 1
  real :: x(n), y(n), z(n) = 0, w(n)
  do i = 1, n                                != parallel
    order(i) = 1 + mod(7*i, n)
    x(i) = 0.1*mod(i, 9)
  end do
  do i = 1, n                                != carries INVERSE
    inverse(order(i)) = i
  end do
  call build
  call products(x, y, z)
  do i = 1, n                                != parallel
    w(i) = y(order(i)) - z(inverse(i))
  end do
  call relax(w, x)
  call paint(colour)
  print '(4f12.4)', sum(x), sum(y), sum(z), sum(w)
  print *, maxval(colour), first(n + 1)
end program main
