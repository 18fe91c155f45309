! Integrals, with statement functions, a function of the program, and intrinsic ones.
program integrals
  implicit none
  integer, parameter :: n = 1000
  double precision :: h, s, x, table(0:n), product, square
  integer :: i
  square(x) = x*x + 1

  h = 1d0/n
  s = 0
  do i = 1, n                              != parallel
    x = (i - 0.5d0)*h
    s = s + 4/square(x)
  end do
  do i = 0, n                              != parallel
    table(i) = outer(i*h)
  end do
  product = 1
  do i = 1, n                              != parallel
    product = product*(1 + exp(-table(i))/n)
  end do
  do i = 0, n, 10                          != parallel
    table(i) = sqrt(max(table(i), 0d0)) + merge(1d0, 0d0, mod(i, 4) == 0)
  end do
  print '(3f14.8)', s*h, product, sum(table)
contains
  double precision function outer(x)
    double precision, intent(in) :: x
    outer = sin(x)*cos(x)
  end function outer
end program integrals
