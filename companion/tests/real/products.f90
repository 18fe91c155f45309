! Products of matrices and vectors, in several orders of their loops.
program products
  implicit none
  integer, parameter :: n = 40, m = 30, l = 20
  double precision :: a(n, l), b(l, m), c(n, m), d(n, m), v(n), w(m)
  integer :: i, j, k

  do j = 1, l                            != parallel
    do i = 1, n                          != parallel
      a(i, j) = mod(3*i + j, 7)
    end do
  end do
  do j = 1, m                            != parallel
    do i = 1, l                          != parallel
      b(i, j) = mod(i + 5*j, 9)
    end do
  end do
  call dots(a, b, c)
  call columns(a, b, d)
  do concurrent (i = 1:n)                != parallel
    v(i) = i
  end do
  w = 0
  do i = 1, n                            != carries W
    do j = 1, m                          != parallel
      w(j) = w(j) + v(i)*c(i, j)
    end do
  end do
  do j = 1, m                            != parallel
    w(j) = w(j) + dot_product(v, d(:, j))
  end do
  print *, sum(c), sum(abs(c - d)), sum(w)
contains
  subroutine dots(a, b, c)
    double precision, intent(in) :: a(:, :), b(:, :)
    double precision, intent(out) :: c(:, :)
    double precision :: s
    integer :: i, j, k

    do i = 1, size(a, 1)                 != parallel
      do j = 1, size(b, 2)               != parallel
        s = 0
        do k = 1, size(a, 2)             != parallel
          s = s + a(i, k)*b(k, j)
        end do
        c(i, j) = s
      end do
    end do
  end subroutine dots

  subroutine columns(a, b, c)
    double precision, intent(in) :: a(n, l), b(l, m)
    double precision, intent(out) :: c(n, m)
    integer :: j, k, k2
    integer, parameter :: size_of_block = 8

    c = 0
    do k2 = 1, l, size_of_block          != carries C
      do j = 1, m                        != parallel
        do k = k2, min(k2 + size_of_block - 1, l)    != carries C
          c(:, j) = c(:, j) + a(:, k)*b(k, j)
        end do
      end do
    end do
  end subroutine columns
end program products
