! A plate with warm edges: Jacobi's steps, and one of Gauss and Seidel.
program plate
  implicit none
  integer, parameter :: n = 60, m = 40
  real :: u(0:n+1, 0:m+1), w(n, m), diff
  integer :: step

  u = 0.0
  u(0, :) = 1.0
  u(:, 0) = 2.0
  do step = 1, 50
    call jacobi(n, m, u, w, diff)
  end do
  call seidel(n, m, u)
  print *, diff, sum(u)
contains
  subroutine jacobi(n, m, u, w, diff)
    integer, intent(in) :: n, m
    real, intent(inout) :: u(0:n+1, 0:m+1)
    real, intent(out) :: w(n, m), diff
    real :: d
    integer :: i, j

    diff = 0.0
    do j = 1, m
      do i = 1, n
        w(i, j) = 0.25*(u(i-1, j) + u(i+1, j) + u(i, j-1) + u(i, j+1))
        d = abs(w(i, j) - u(i, j))
        if (d > diff) diff = d
      end do
    end do
    do j = 1, m
      u(1:n, j) = w(:, j)
    end do
  end subroutine jacobi

  subroutine seidel(n, m, u)
    integer, intent(in) :: n, m
    real, intent(inout) :: u(0:n+1, 0:m+1)
    integer :: i, j

    do j = 1, m
      do i = 1, n
        u(i, j) = 0.25*(u(i-1, j) + u(i+1, j) + u(i, j-1) + u(i, j+1))
      end do
    end do
  end subroutine seidel
end program plate
