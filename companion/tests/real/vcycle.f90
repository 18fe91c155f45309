! Two grids in two dimensions: relaxation in two colours, residuals, restriction, interpolation.
module levels
  implicit none
  integer, parameter :: n = 16, half = n/2
  type level
    real :: u(0:n, 0:n) = 1, f(0:n, 0:n) = 1
  end type level
contains
  ! Points of one colour don't use each other, which no test sees: where a row begins is no sum.
  subroutine relax(u, f)
    real, intent(inout) :: u(0:n, 0:n)
    real, intent(in) :: f(0:n, 0:n)
    integer :: i, j, colour
    do colour = 0, 1                         != carries U
      do j = 1, n - 1                        != carries U
        do i = 1 + mod(j + colour, 2), n - 1, 2      != parallel
          u(i, j) = 0.25*(u(i-1, j) + u(i+1, j) + u(i, j-1) + u(i, j+1) + f(i, j))
        end do
      end do
    end do
  end subroutine relax

  subroutine residual(u, f, r, norm)
    real, intent(in) :: u(0:n, 0:n), f(0:n, 0:n)
    real, intent(inout) :: r(0:n, 0:n), norm
    integer :: i, j
    do j = 1, n - 1                          != parallel
      do i = 1, n - 1                        != parallel
        r(i, j) = f(i, j) + u(i-1, j) + u(i+1, j) + u(i, j-1) + u(i, j+1) - 4*u(i, j)
        norm = max(norm, abs(r(i, j)))
      end do
    end do
  end subroutine residual

  subroutine restrict(r, c)
    real, intent(in) :: r(0:n, 0:n)
    real, intent(inout) :: c(0:half, 0:half)
    integer :: i, j
    do j = 1, half - 1                       != parallel
      do i = 1, half - 1                     != parallel
        c(i, j) = r(2*i, 2*j)/2 + (r(2*i-1, 2*j) + r(2*i+1, 2*j) + r(2*i, 2*j-1) + r(2*i, 2*j+1))/8
      end do
    end do
  end subroutine restrict

  ! In its own place: column 2*J is read before column 2*J is assigned. In a single row, J is 2*J where J is 0.
  subroutine inject(r)
    real, intent(inout) :: r(0:n, 0:n)
    integer :: i, j
    do j = 1, half                           != carries R
      do i = 1, half                         != carries R
        r(i, j) = r(2*i, 2*j)
      end do
    end do
  end subroutine inject

  subroutine interpolate(e, u)
    real, intent(in) :: e(0:half, 0:half)
    real, intent(inout) :: u(0:n, 0:n)
    integer :: i, j
    do j = 0, half - 1                       != parallel
      do i = 0, half - 1                     != parallel
        u(2*i, 2*j) = u(2*i, 2*j) + e(i, j)
        u(2*i+1, 2*j) = u(2*i+1, 2*j) + (e(i, j) + e(i+1, j))/2
        u(2*i, 2*j+1) = u(2*i, 2*j+1) + (e(i, j) + e(i, j+1))/2
        u(2*i+1, 2*j+1) = u(2*i+1, 2*j+1) + (e(i, j) + e(i+1, j) + e(i, j+1) + e(i+1, j+1))/4
      end do
    end do
  end subroutine interpolate

  ! The components of a structure are arrays of their own.
  subroutine clear(one)
    type(level), intent(inout) :: one
    integer :: i, j
    do j = 0, n                              != parallel
      do i = 0, n                            != parallel
        one%u(i, j) = 0
        one%f(i, j) = mod(i*j, 7)
      end do
    end do
  end subroutine clear
end module levels

program vcycle
  use levels
  implicit none
  type(level) :: fine
  real :: r(0:n, 0:n) = 0, c(0:half, 0:half) = 0, e(0:half, 0:half) = 0, norm
  integer :: i, j
  call clear(fine)
  call relax(fine%u, fine%f)
  norm = 0
  call residual(fine%u, fine%f, r, norm)
  call restrict(r, c)
  do i = 1, half - 1                         != carries E
    do j = 1, half - 1                       != carries E
      e(i, j) = (e(i-1, j) + e(i, j-1) + c(i, j))/4
    end do
  end do
  call interpolate(e, fine%u)
  call relax(fine%u, fine%f)
  call inject(r)
  print '(4f12.5)', norm, sum(fine%u), sum(r), sum(e)
end program vcycle
