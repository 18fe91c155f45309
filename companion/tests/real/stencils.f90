! Stencils in two and three dimensions, and the relaxations of Gauss, Seidel and Southwell.
module stencils
  implicit none
  integer, parameter :: wp = kind(1.0d0)
contains
  subroutine five_points(u, v)
    real(wp), intent(in) :: u(0:, 0:)
    real(wp), intent(out) :: v(0:, 0:)
    integer :: i, j

    do j = 1, ubound(u, 2) - 1             != parallel
      do i = 1, ubound(u, 1) - 1           != parallel
        v(i, j) = (u(i-1, j) + u(i+1, j) + u(i, j-1) + u(i, j+1))/4
      end do
    end do
  end subroutine five_points

  subroutine relax(u, n, m, omega)
    integer, intent(in) :: n, m
    real(wp), intent(inout) :: u(0:n+1, 0:m+1)
    real(wp), intent(in) :: omega
    real(wp) :: change
    integer :: i, j

    do j = 1, m                            != carries U
      do i = 1, n                          != carries U
        change = (u(i-1, j) + u(i+1, j) + u(i, j-1) + u(i, j+1))/4 - u(i, j)
        u(i, j) = u(i, j) + omega*change
      end do
    end do
  end subroutine relax

  subroutine red_and_black(u, n, m)
    integer, intent(in) :: n, m
    real(wp), intent(inout) :: u(0:n+1, 0:m+1)
    integer :: i, j, colour

    do colour = 0, 1                       != carries U
      do j = 1, m                          != carries U
        do i = 1 + mod(j + colour, 2), n, 2    != parallel
          u(i, j) = (u(i-1, j) + u(i+1, j) + u(i, j-1) + u(i, j+1))/4
        end do
      end do
    end do
  end subroutine red_and_black

  subroutine lines(u, n, m)
    integer, intent(in) :: n, m
    real(wp), intent(inout) :: u(n, m)
    integer :: i, j

    do j = 2, m                            != carries U
      do i = 1, n                          != parallel
        u(i, j) = u(i, j) - u(i, j-1)/2
      end do
    end do
    do j = 1, m                            != parallel
      do i = 2, n                          != carries U
        u(i, j) = u(i, j) - u(i-1, j)/3
      end do
    end do
  end subroutine lines

  subroutine cube(u, v, n, total)
    integer, intent(in) :: n
    real(wp), intent(in) :: u(n, n, n)
    real(wp), intent(inout) :: v(n, n, n)
    real(wp), intent(out) :: total
    real(wp) :: middle
    integer :: i, j, k

    total = 0
    do k = 2, n - 1                        != parallel
      do j = 2, n - 1                      != parallel
        do i = 2, n - 1                    != parallel
          middle = u(i, j, k)
          v(i, j, k) = middle + 0.1_wp*(u(i-1, j, k) + u(i+1, j, k) + u(i, j-1, k) &
            + u(i, j+1, k) + u(i, j, k-1) + u(i, j, k+1) - 6*middle)
          total = total + abs(v(i, j, k) - middle)
        end do
      end do
    end do
  end subroutine cube
end module stencils

program steps
  use stencils
  implicit none
  integer, parameter :: n = 30
  real(wp) :: u(0:n+1, 0:n+1), v(0:n+1, 0:n+1), a(12, 12, 12), b(12, 12, 12), total
  integer :: i, j, k, step

  do j = 0, n + 1                          != parallel
    do i = 0, n + 1                        != parallel
      u(i, j) = mod(i*i + 3*j, 17)
    end do
  end do
  v = u
  do step = 1, 10                          != carries U, V
    call five_points(u, v)
    call five_points(v, u)
    call relax(u, n, n, 1.2_wp)
    call red_and_black(u, n, n)
  end do
  call lines(u, n + 2, n + 2)
  do k = 1, 12                             != parallel
    do j = 1, 12                           != parallel
      a(:, j, k) = [(i + j*k, i = 1, 12)]
    end do
  end do
  b = a
  call cube(a, b, 12, total)
  print '(3es22.14)', sum(u), sum(b), total
end program steps
