! Counting: histograms, scatter and gather, and what an index array keeps open.
program counting
  implicit none
  integer, parameter :: n = 2000, bins = 16
  integer :: keys(n), count(bins), first(bins), place(n), sorted(n), i, b, least, most
  real :: weight(n), heavy(bins), total
  logical :: is_sorted

  do i = 1, n                              != parallel
    keys(i) = mod(i*i + 7*i, bins) + 1
    weight(i) = 1.0/(1 + mod(i, 8))
  end do
  count = 0
  heavy = 0
  do i = 1, n                              != carries COUNT, HEAVY
    b = keys(i)
    count(b) = count(b) + 1
    heavy(b) = heavy(b) + weight(i)
  end do
  first(1) = 1
  do i = 2, bins                           != carries FIRST
    first(i) = first(i-1) + count(i-1)
  end do
  do i = 1, n                              != carries FIRST
    place(i) = first(keys(i))
    first(keys(i)) = first(keys(i)) + 1
  end do
  do i = 1, n                              != carries SORTED
    sorted(place(i)) = keys(i)
  end do
  do i = 1, n                              != parallel
    weight(i) = heavy(keys(i))/count(keys(i))
  end do
  least = keys(1)
  most = keys(1)
  total = 0
  do i = 1, n                              != parallel
    least = min(least, keys(i))
    if (keys(i) > most) most = keys(i)
    total = total + weight(i)
  end do
  is_sorted = .true.
  do i = 2, n                              != parallel
    is_sorted = is_sorted .and. sorted(i-1) <= sorted(i)
  end do
  print *, least, most, is_sorted, sum(count)
  print '(es12.4)', total
end program counting
