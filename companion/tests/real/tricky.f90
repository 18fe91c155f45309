! Loops that are easily taken for parallel, or for what they aren't.
module shared
  implicit none
  integer :: level = 0, last_seen = 0
  integer, target :: pool(100) = 0
  type pair
    integer :: left = 0, right = 0
  end type pair
end module shared

subroutine lists(a, n)
  implicit none
  integer :: n, a(n), i, t, u
  namelist /group/ t
  do i = 1, n                              != parallel
    t = a(i)
    a(i) = t + 1
  end do
  u = 0
  do i = 1, n                              != parallel
    u = max(u, a(i), -a(i))
  end do
  write (*, nml=group)
  print *, u
end subroutine lists

subroutine hosts(a, n)
  use shared
  implicit none
  integer :: n, a(n), i, t, u, v
  u = 0
  v = 0
  do i = 1, n                              != parallel
    t = a(i)
    a(i) = t + 1
  end do
  do i = 1, n                              != carries LEVEL
    level = level + a(i)*level
  end do
  do i = 1, n                              != parallel
    last_seen = a(i)
    a(i) = last_seen + 2
  end do
  do i = 1, n                              != carries U
    if (a(i) > 5) u = a(i)
    a(i) = a(i) + 1
  end do
  do i = 1, n                              != parallel
    if (a(i) > 7) v = i
    if (a(i) > 8) a(i) = v
  end do
  call show
contains
  subroutine show
    print *, t, u, level, last_seen
  end subroutine show
end subroutine hosts

subroutine subscripts(a, b, c, n, m)
  implicit none
  integer :: n, m, a(n), b(n), c(n, n), i, j, k
  integer(kind=1) :: small
  do i = 1, n                              != carries A
    a(i) = a(n - i + 1) + 1
  end do
  do i = 1, n                              != carries A
    a(mod(i, 3) + 1) = i
  end do
  do i = 1, n                              != carries A
    a(i/2 + 1) = i
  end do
  do i = 1, n                              != parallel
    a(i) = a(i)*2/2
  end do
  do i = 1, n                              != parallel
    a(2*i/2) = i
  end do
  do i = n, 2, -1                          != carries A
    a(i) = a(i-1)
  end do
  do i = 1, n - 1                          != carries A
    a(i) = a(i+1)
  end do
  do i = 1, n - m                          != carries A
    a(i + m) = a(i)
  end do
  do i = 1, n - 2, 2                       != parallel
    a(i) = a(i+1) + 1
  end do
  do i = 1, n - 2, 2                       != carries A
    a(i) = a(i+2) + 1
  end do
  do i = 1, n                              != parallel
    do j = 1, n                            != carries J
      c(i, j) = c(i, j) + a(j)
    end do
    b(i) = j
  end do
  do i = 1, n                              != carries C
    do j = 1, n                            != carries C
      c(j, i) = c(i, j)
    end do
  end do
  ! That no element of the diagonal is assigned, no test sees.
  do i = 1, n                              != carries C
    do j = 1, i - 1                        != parallel
      c(i, j) = c(j, j)
    end do
  end do
  do small = 1, 9                          != parallel
    a(small) = small
  end do
  k = 1
  do i = 1, n                              != carries B, K
    b(k) = i
    if (a(i) > 3) k = k + 1
  end do
end subroutine subscripts

subroutine sums(a, n, s, t, p, q, x)
  use shared
  implicit none
  integer :: n, a(n), s, t, i, k
  logical :: p, q
  complex :: x
  type(pair) :: both
  do i = 1, n                              != carries S
    s = a(i) - s
  end do
  do i = 1, n                              != carries S
    s = mod(2*s + a(i), 1000)
  end do
  do i = 1, n                              != carries T
    s = s + t
    t = t + 1
    if (t > 50) t = 0
  end do
  do i = 1, n                              != parallel
    if (a(i) > 2) then
      s = s + a(i)
    else
      s = s - 1
    end if
  end do
  do i = 1, n                              != carries S
    s = s + 1
    s = max(s, a(i))
  end do
  do i = 1, n                              != carries S
    s = s + a(i)
    a(i) = s
  end do
  do i = 1, n                              != parallel
    p = p .neqv. a(i) > 4
    q = q .and. a(i) < 1000
  end do
  do i = 1, n                              != parallel
    x = x + cmplx(a(i), i)
  end do
  do i = 1, n                              != carries BOTH%LEFT
    both%left = both%left + a(i)
  end do
  k = 3
  do i = 1, n                              != parallel
    k = k + 1
    a(i) = a(i) + k
  end do
  do i = 1, n                              != carries K
    if (i == 7) cycle
    k = k + 1
    a(i) = a(i) + k
  end do
  s = s + k + both%left
end subroutine sums

subroutine storage(n)
  use shared
  implicit none
  integer :: n, i, j, e(10), first, t
  integer, pointer :: view(:)
  integer, allocatable :: list(:)
  equivalence (e(3), first)
  common /block/ j
  view => pool(2:100)
  do i = 1, n                              != refused pointer
    view(i) = pool(i)
  end do
  do i = 1, 10                             != refused equivalence
    first = i
    e(i) = first
  end do
  allocate (list(5))
  do i = 1, n                              != carries LIST
    list = [i, i + 1]
  end do
  do i = 1, n                              != carries LIST
    list(1:2) = list(1:2)
  end do
  do i = 1, n                              != parallel
    j = pool(i)
    pool(i) = j + 1
  end do
  do i = 1, n                              != refused allocate
    if (allocated(list)) deallocate (list)
    allocate (list(i))
  end do
  t = 0
  associate (alias => t)
    do i = 1, n                            != refused associate
      alias = alias + i
    end do
  end associate
  print *, sum(pool), t, size(list), sum(e)
end subroutine storage

program tricky
  use shared
  implicit none
  integer, parameter :: n = 40
  integer :: a(n), b(n), c(n, n), s, t, i, j
  logical :: p, q
  complex :: x
  do i = 1, n                              != parallel
    a(i) = mod(7*i, 13)
    b(i) = sum([(j, j = i, i + 2)]) + a(i)
    do j = 1, n                            != parallel
      c(i, j) = i - 2*j
    end do
  end do
  s = 1
  t = 2
  p = .true.
  q = .true.
  x = 0
  call lists(a, n)
  call hosts(b, n)
  call subscripts(a, b, c, n, 3)
  call sums(a, n, s, t, p, q, x)
  call storage(n)
  print *, s, t, p, q, x
  print *, a
  print *, b
  print *, sum(c), sum(abs(c))
end program tricky
