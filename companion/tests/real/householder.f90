! Reflections of Householder with whole sections, as they are written today.
program householder
  implicit none
  integer, parameter :: m = 30, n = 20
  real(kind=8) :: a(m, n), v(m), s, alpha
  integer :: i, j, k

  do j = 1, n                              != parallel
    a(:, j) = [(mod(i*j, 13) + 0.5d0/(i + j), i = 1, m)]
  end do
  do k = 1, n                              != carries A, V
    v(k:m) = a(k:m, k)
    alpha = -sign(sqrt(dot_product(v(k:m), v(k:m))), v(k))
    v(k) = v(k) - alpha
    s = dot_product(v(k:m), v(k:m))
    if (s == 0) cycle
    do j = k, n                            != parallel
      a(k:m, j) = a(k:m, j) - 2*dot_product(v(k:m), a(k:m, j))/s*v(k:m)
    end do
  end do
  s = 0
  do k = 1, n                              != parallel
    s = s + abs(a(k, k))
    where (abs(a(:, k)) < 1d-8) a(:, k) = 0
  end do
  print '(es16.8)', s
end program householder
