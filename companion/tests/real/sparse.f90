! A sparse matrix by rows: products, a scaled copy, the transposed product, and conjugate gradients.
module sparse
  implicit none
  type matrix
    integer :: rows = 0
    integer, allocatable :: first(:), column(:)
    real, allocatable :: value(:)
  end type matrix
contains
  subroutine times(n, first, column, value, x, y)
    integer, intent(in) :: n, first(n+1), column(*)
    real, intent(in) :: value(*), x(n)
    real, intent(out) :: y(n)
    integer :: i, k
    real :: s

    do i = 1, n                            != parallel
      s = 0
      do k = first(i), first(i+1) - 1      != parallel
        s = s + value(k)*x(column(k))
      end do
      y(i) = s
    end do
  end subroutine times

  subroutine transposed(n, first, column, value, x, y)
    integer, intent(in) :: n, first(n+1), column(*)
    real, intent(in) :: value(*), x(n)
    real, intent(out) :: y(n)
    integer :: i, k

    y = 0
    do i = 1, n                            != carries Y
      do k = first(i), first(i+1) - 1      != carries Y
        y(column(k)) = y(column(k)) + value(k)*x(i)
      end do
    end do
  end subroutine transposed

  subroutine gradients(a, b, x, steps)
    type(matrix), intent(in) :: a
    real, intent(in) :: b(:)
    real, intent(inout) :: x(:)
    integer, intent(in) :: steps
    real :: r(size(b)), p(size(b)), q(size(b)), rr, old, alpha
    integer :: i, step

    call times(a%rows, a%first, a%column, a%value, x, q)
    rr = 0
    do i = 1, a%rows                       != parallel
      r(i) = b(i) - q(i)
      p(i) = r(i)
      rr = rr + r(i)*r(i)
    end do
    do step = 1, steps                     != refused exit
      if (rr < 1.0e-10) exit
      call times(a%rows, a%first, a%column, a%value, p, q)
      alpha = rr/dot_product(p, q)
      old = rr
      rr = 0
      do i = 1, a%rows                     != parallel
        x(i) = x(i) + alpha*p(i)
        r(i) = r(i) - alpha*q(i)
        rr = rr + r(i)**2
      end do
      do i = 1, a%rows                     != parallel
        p(i) = r(i) + rr/old*p(i)
      end do
    end do
  end subroutine gradients
end module sparse

program solve
  use sparse
  implicit none
  integer, parameter :: n = 50
  type(matrix) :: a
  real :: x(n), y(n), b(n)
  integer :: i, k

  a%rows = n
  allocate (a%first(n+1), a%column(3*n), a%value(3*n))
  k = 1
  do i = 1, n                              != carries A%COLUMN, A%VALUE, K
    a%first(i) = k
    if (i > 1) then
      a%column(k) = i - 1
      a%value(k) = -1
      k = k + 1
    end if
    a%column(k) = i
    a%value(k) = 3
    k = k + 1
  end do
  a%first(n+1) = k
  do i = 1, n                              != parallel
    x(i) = 0
    b(i) = mod(i, 5)
  end do
  call transposed(n, a%first, a%column, a%value, b, y)
  call gradients(a, y, x, 60)
  print '(2f10.3)', sum(y), sum(abs(x)) - sum(abs(x))
end program solve
