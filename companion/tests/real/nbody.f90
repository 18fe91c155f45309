! Bodies in three dimensions, in arrays of their own; one loop makes use of the third law and can't be parallel as it is.
program nbody
  implicit none
  integer, parameter :: n = 40
  double precision :: x(3, n), v(3, n), f(3, n), m(n), dx, dy, dz, r2, s, energy, work(3)
  integer :: i, j, k, step

  do i = 1, n                              != parallel
    m(i) = 1 + mod(i, 3)
    do k = 1, 3                            != parallel
      x(k, i) = mod(i*k*7, 23)
      v(k, i) = 0
    end do
  end do
  do step = 1, 5                           != carries F, V, X
    do i = 1, n                            != parallel
      f(:, i) = 0
      do j = 1, n                          != carries F
        if (j == i) cycle
        dx = x(1, j) - x(1, i)
        dy = x(2, j) - x(2, i)
        dz = x(3, j) - x(3, i)
        r2 = dx*dx + dy*dy + dz*dz + 0.1d0
        s = m(j)/(r2*sqrt(r2))
        f(1, i) = f(1, i) + s*dx
        f(2, i) = f(2, i) + s*dy
        f(3, i) = f(3, i) + s*dz
      end do
    end do
    do i = 1, n                            != parallel
      do k = 1, 3                          != parallel
        v(k, i) = v(k, i) + 0.01d0*f(k, i)
        x(k, i) = x(k, i) + 0.01d0*v(k, i)
      end do
    end do
  end do
  f = 0
  do i = 1, n - 1                          != carries F, WORK
    do j = i + 1, n                        != carries F, WORK
      do k = 1, 3                          != parallel
        work(k) = x(k, j) - x(k, i)
        f(k, i) = f(k, i) + work(k)
        f(k, j) = f(k, j) - work(k)
      end do
    end do
  end do
  energy = 0
  do i = 1, n                              != parallel
    energy = energy + m(i)*(v(1, i)**2 + v(2, i)**2 + v(3, i)**2)/2
  end do
  print '(3es16.8)', energy, sum(x), sum(f*f)
end program nbody
