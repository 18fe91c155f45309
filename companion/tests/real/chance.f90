! Numbers that look like chance: a generator that carries its seed, and one that each iteration computes by itself.
module chance
  implicit none
  integer :: seed = 12345
contains
  subroutine draw(x, n)
    integer, intent(in) :: n
    real, intent(out) :: x(n)
    integer :: i

    do i = 1, n                            != carries SEED
      seed = mod(seed*1103 + 12347, 65536)
      x(i) = real(seed)/65536
    end do
  end subroutine draw

  subroutine hash(x, n)
    integer, intent(in) :: n
    real, intent(out) :: x(n)
    integer :: i, s, round

    do i = 1, n                            != parallel
      s = i
      do round = 1, 3                      != carries S
        s = ieor(mod(s*1103 + 12347, 65536), ishft(s, -3))
      end do
      x(i) = real(iand(s, 65535))/65536
    end do
  end subroutine hash
end module chance

program area
  use chance
  implicit none
  integer, parameter :: n = 3000
  real :: x(n), y(n)
  integer :: i, inside, outside

  call draw(x, n)
  call hash(y, n)
  inside = 0
  outside = 0
  do i = 1, n                              != parallel
    if (x(i)**2 + y(i)**2 < 1) then
      inside = inside + 1
    else
      outside = outside + 1
    end if
  end do
  print *, inside, outside
end program area
