! A fast Fourier transform, in place: the steps of its inner loops are symbols.
program fourier
  implicit none
  integer, parameter :: n = 256, logarithm = 8
  complex :: x(0:n-1), w, t
  real :: angle, power
  integer :: i, j, k, level, half, width

  do i = 0, n - 1                          != parallel
    x(i) = cmplx(mod(7*i, 19), mod(3*i, 11))
  end do
  j = 0
  do i = 0, n - 2                          != carries J, X
    if (i < j) then
      t = x(i)
      x(i) = x(j)
      x(j) = t
    end if
    k = n/2
    do while (k <= j)                      != refused while
      j = j - k
      k = k/2
    end do
    j = j + k
  end do
  width = 1
  do level = 1, logarithm                  != carries WIDTH, X
    half = width
    width = 2*width
    do j = 0, half - 1                     != carries X
      angle = -3.14159265*j/half
      w = cmplx(cos(angle), sin(angle))
      do i = j, n - 1, width               != carries X
        t = w*x(i + half)
        x(i + half) = x(i) - t
        x(i) = x(i) + t
      end do
    end do
  end do
  power = 0
  do i = 0, n - 1                          != parallel
    power = power + real(x(i))**2 + aimag(x(i))**2
  end do
  print '(es12.4)', power
end program fourier
