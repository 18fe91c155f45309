! Calls: rows and columns, variables of a module, sums of a function's values, and a function that calls itself.
module field
  implicit none
  integer, parameter :: n = 40, m = 30
  real :: u(n, m), v(n, m)
  integer :: calls = 0
contains
  subroutine smooth_row(i)
    integer, intent(in) :: i
    integer :: j
    do j = 2, m - 1                        != parallel
      v(i, j) = (u(i, j-1) + 2*u(i, j) + u(i, j+1))/4
    end do
  end subroutine smooth_row

  subroutine scale_column(x, factor)
    real, intent(inout) :: x(:)
    real, intent(in) :: factor
    integer :: i
    do i = 1, size(x)                      != parallel
      x(i) = x(i)*factor
    end do
  end subroutine scale_column

  subroutine count_it(x)
    real, intent(inout) :: x
    calls = calls + 1
    x = x + 1
  end subroutine count_it

  real function energy(x)
    real, intent(in) :: x
    energy = x*x/2
  end function energy

  subroutine split(x, high, low)
    real, intent(in) :: x
    real, intent(out) :: high, low
    high = aint(x)
    low = x - high
  end subroutine split

  recursive function steps(k) result(found)
    integer, intent(in) :: k
    integer :: found
    if (k <= 1) then
      found = 0
    else if (mod(k, 2) == 0) then
      found = 1 + steps(k/2)
    else
      found = 1 + steps(3*k + 1)
    end if
  end function steps
end module field

program callrows
  use field
  implicit none
  integer :: i, j, depth(50)
  real :: a(50), b(50), high, low, total
  do j = 1, m                              != parallel
    do i = 1, n                            != parallel
      u(i, j) = mod(i*j, 11)
    end do
  end do
  v = u
  do i = 1, n                              != parallel
    call smooth_row(i)
  end do
  do j = 1, m                              != parallel
    call scale_column(v(:, j), 0.5)
  end do
  do i = 2, n                              != carries V
    call scale_column(v(i-1:i, 1), 1.1)
  end do
  do i = 1, 50                             != parallel
    call split(i*0.37, high, low)
    a(i) = high - low
    b(i) = low
  end do
  total = 0
  do i = 1, 50                             != parallel
    total = total + energy(a(i))
  end do
  do i = 1, 50                             != carries CALLS
    call count_it(a(i))
  end do
  do i = 1, 50                             != parallel
    depth(i) = steps(i)
  end do
  do i = 1, 49                             != carries A
    call exchange(a(i), a(i+1))
  end do
  do i = 1, 25                             != parallel
    call exchange(a(i), a(51-i))
  end do
  do i = 1, 50                             != parallel
    high = b(i)
    call lower(i)
  end do
  do i = 1, 50                             != carries LOW
    low = b(i)
    call lower(i)
  end do
  print '(6f14.6)', sum(v), total, sum(b), sum(a), a(1), a(26)
  print *, calls, sum(depth), maxval(depth)
contains
  subroutine exchange(x, y)
    real, intent(inout) :: x, y
    real :: t
    t = x
    x = y
    y = t
  end subroutine exchange

  subroutine lower(k)
    integer, intent(in) :: k
    b(k) = b(k) - low/100
  end subroutine lower
end program callrows
