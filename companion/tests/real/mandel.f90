! Mandelbrot's set: inner loops that are left early don't keep the outer ones from being parallel.
program mandel
  implicit none
  integer, parameter :: n = 40, most = 50
  integer :: depth(n, n), i, j, k, total
  complex :: z, c
  double precision :: x, y, xx

  do j = 1, n                              != parallel
    do i = 1, n                            != parallel
      c = cmplx(-2 + 3.0*i/n, -1.5 + 3.0*j/n)
      z = 0
      do k = 1, most                       != refused exit
        z = z*z + c
        if (real(z)**2 + aimag(z)**2 > 4) exit
      end do
      depth(i, j) = k
    end do
  end do
  do j = 1, n                              != parallel
    do i = 1, n                            != parallel
      x = 0
      y = 0
      do k = 1, 20                         != carries X, Y
        xx = x*x - y*y + i/40d0
        y = 2*x*y + j/40d0
        x = xx
        if (x*x + y*y > 4) cycle
      end do
      if (x*x + y*y > 4) depth(i, j) = depth(i, j) + 1
    end do
  end do
  total = 0
  do j = 1, n                              != parallel
    total = total + sum(depth(:, j))
  end do
  print *, total
end program mandel
