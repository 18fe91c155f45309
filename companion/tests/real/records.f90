! Records as text: numbers are written into internal units and read from them, names are sorted.
program records
  implicit none
  integer, parameter :: n = 30
  character(len=24) :: line(n), text
  character(len=6) :: name(n), key
  integer :: i, j, number(n), width(n), total
  real :: price(n)

  do i = 1, n                                != parallel
    write (line(i), '(a, i3.3, f8.2)') 'item', mod(7*i, 100), 1.5*i
  end do
  do i = 1, n                                != parallel
    read (line(i), '(4x, i3, f8.2)') number(i), price(i)
  end do
  do i = 1, n                                != parallel
    write (text, '(i6)') number(i)
    text = adjustl(text)
    width(i) = len_trim(text)
  end do
  ! Only a part of the text is assigned.
  text = 'abcdef'
  do i = 1, n                                != carries TEXT
    write (text(1:3), '(i3)') mod(7*i, 31)
    name(i) = text(1:6)
  end do
  do i = 2, n                                != carries NAME
    key = name(i)
    do j = i - 1, 1, -1                      != refused exit
      if (name(j) <= key) exit
      name(j+1) = name(j)
    end do
    name(j+1) = key
  end do
  ! Without a format an empty field leaves J as it was.
  total = 0
  do i = 1, n                                != carries J
    read (line(i)(5:7), *) j
    total = total + j
  end do
  do i = 1, n                                != parallel
    read (line(i)(5:7), '(i3)') j
    total = total + j*width(i)
  end do
  print *, total, sum(width), name(1), name(n), line(n)
  print '(f10.2)', sum(price)
end program records
