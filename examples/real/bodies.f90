! Bodies that attract each other, and a histogram of their distances from the origin.
module bodies
  implicit none
  integer, parameter :: wp = kind(1.0d0)
  type body
    real(wp) :: mass, place(3), speed(3), force(3)
  end type body
contains
  subroutine attract(count, all)
    integer, intent(in) :: count
    type(body), intent(inout) :: all(count)
    real(wp) :: apart(3), square, pull(3)
    integer :: i, j, k

    do i = 1, count
      pull = 0
      do j = 1, count
        if (i == j) cycle
        do k = 1, 3
          apart(k) = all(j)%place(k) - all(i)%place(k)
        end do
        square = apart(1)**2 + apart(2)**2 + apart(3)**2 + 1.0e-6_wp
        do k = 1, 3
          pull(k) = pull(k) + all(j)%mass*apart(k)/(square*sqrt(square))
        end do
      end do
      all(i)%force = all(i)%mass*pull
    end do
  end subroutine attract

  subroutine move(count, all, time)
    integer, intent(in) :: count
    type(body), intent(inout) :: all(count)
    real(wp), intent(in) :: time
    integer :: i

    do i = 1, count
      all(i)%speed = all(i)%speed + time*all(i)%force/all(i)%mass
      all(i)%place = all(i)%place + time*all(i)%speed
    end do
  end subroutine move

  function energy(count, all) result(total)
    integer, intent(in) :: count
    type(body), intent(in) :: all(count)
    real(wp) :: total
    integer :: i

    total = 0
    do i = 1, count
      total = total + all(i)%mass*dot_product(all(i)%speed, all(i)%speed)/2
    end do
  end function energy

  subroutine spread(count, all, width, bins)
    integer, intent(in) :: count
    type(body), intent(in) :: all(count)
    real(wp), intent(in) :: width
    integer, intent(out) :: bins(:)
    integer :: i, bin

    bins = 0
    do i = 1, count
      bin = min(int(sqrt(sum(all(i)%place**2))/width) + 1, size(bins))
      bins(bin) = bins(bin) + 1
    end do
  end subroutine spread
end module bodies
