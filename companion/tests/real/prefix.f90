! Recurrences that carry, and loops that look like them and don't.
program prefix
  implicit none
  integer, parameter :: n = 200
  integer :: a(n), b(n), c(0:2*n), i, last, k, odd, even, t
  integer(kind=8) :: wide

  do i = 1, n                              != parallel
    a(i) = mod(i*37, 101)
    b(i) = 0
  end do
  c = 0
  do i = 2, n                              != carries A
    a(i) = a(i) + a(i-1)
  end do
  last = a(1)
  do i = 2, n                              != carries LAST
    t = a(i) - last
    last = a(i)
    b(i) = t
  end do
  do i = 1, n/2                            != parallel
    c(i) = c(i + n/2) + a(i)
  end do
  do i = 1, n/2                            != parallel
    c(2*i) = c(2*i - 1) + 1
  end do
  do i = 1, n                              != carries C
    c(i) = c(2*i) + 1
  end do
  k = 0
  do i = 1, n                              != parallel
    k = k + 2
    c(k) = i
  end do
  k = 0
  do i = 1, n                              != carries B, K
    if (a(i) > 50) then
      k = k + 1
      b(k) = a(i)
    end if
  end do
  odd = 0
  even = 0
  do i = 1, n                              != parallel
    select case (mod(a(i), 2))
    case (0)
      even = even + 1
    case default
      odd = odd + a(i)
    end select
  end do
  do i = 1, n                              != parallel
    t = b(i)
    if (t > 0) then
      a(i) = t
    else
      a(i) = -t
    end if
  end do
  wide = 0
  do i = 1, n                              != parallel
    wide = wide + a(i)
  end do
  print *, last, k, odd, even, t, wide, sum(c)
end program prefix
