! Two grids in one dimension: smoothing, the residual, restriction, prolongation.
subroutine smooth(u, f, n, sweeps)
  implicit none
  integer n, sweeps, i, sweep
  real u(0:n), f(0:n), w(0:n)
  w = u
  do sweep = 1, sweeps                     != carries U, W
    do i = 1, n - 1                        != parallel
      w(i) = (u(i-1) + u(i+1) + f(i))/2
    end do
    do i = 1, n - 1                        != parallel
      u(i) = u(i)/3 + 2*w(i)/3
    end do
  end do
end subroutine smooth

subroutine restricted(u, f, n, r)
  implicit none
  integer n, i
  real u(0:n), f(0:n), r(0:n/2), left, right, middle
  do i = 1, n/2 - 1                        != parallel
    middle = f(2*i) + u(2*i-1) - 2*u(2*i) + u(2*i+1)
    left = f(2*i-1) + u(2*i-2) - 2*u(2*i-1) + u(2*i)
    right = f(2*i+1) + u(2*i) - 2*u(2*i+1) + u(2*i+2)
    r(i) = left + 2*middle + right
  end do
  r(0) = 0
  r(n/2) = 0
end subroutine restricted

subroutine prolonged(e, u, n)
  implicit none
  integer n, i
  real e(0:n/2), u(0:n)
  do i = 1, n/2 - 1                        != parallel
    u(2*i) = u(2*i) + e(i)
  end do
  do i = 1, n/2                            != parallel
    u(2*i-1) = u(2*i-1) + (e(i-1) + e(i))/2
  end do
end subroutine prolonged

program twogrids
  implicit none
  integer, parameter :: n = 64
  real u(0:n), f(0:n), r(0:n/2), e(0:n/2), s
  integer i, cycles
  do i = 0, n                              != parallel
    u(i) = 0
    f(i) = mod(i, 5) - 2
  end do
  do cycles = 1, 6                         != carries E, R, U
    call smooth(u, f, n, 3)
    call restricted(u, f, n, r)
    e = 0
    call smooth(e, r, n/2, 60)
    call prolonged(e, u, n)
    call smooth(u, f, n, 3)
  end do
  s = 0
  do i = 1, n                              != parallel
    s = max(s, abs(u(i) - u(i-1)))
  end do
  print '(f12.4)', s
end program twogrids
