! What acts on the water of a cell by itself: the ground's friction, the wind, and rain.
module forces
  use kinds
  use settings
  use state
  implicit none

  real(dp) :: gust = 1.0_dp

contains

  subroutine act(dt)
    real(dp), intent(in) :: dt

    call blow()
    call rub(dt)
    call drive(dt)
    call fall(dt)
  end subroutine act

  ! The wind comes in gusts.
  subroutine blow()
    gust = 1 + 0.3_dp * sin(2 * pi * time / 60)
  end subroutine blow

  ! Friction takes more of fast and of shallow water.
  subroutine rub(dt)
    real(dp), intent(in) :: dt
    integer :: i, j
    real(dp) :: u, v, speed, less

    do j = 1, ny
      do i = 1, nx
        if (h(i, j) > dry) then
          u = velocity(h(i, j), hu(i, j))
          v = velocity(h(i, j), hv(i, j))
          speed = sqrt(u**2 + v**2)
          less = 1 + dt * gravity * roughness**2 * speed / h(i, j)**(4.0_dp / 3.0_dp)
          hu(i, j) = hu(i, j) / less
          hv(i, j) = hv(i, j) / less
        end if
      end do
    end do
  end subroutine rub

  ! The wind drives what is wet.
  subroutine drive(dt)
    real(dp), intent(in) :: dt
    real(dp), parameter :: drag = 2.0e-6_dp
    integer :: i, j
    real(dp) :: speed

    speed = gust * sqrt(wind_x**2 + wind_y**2)
    do j = 1, ny
      do i = 1, nx
        if (h(i, j) > dry) then
          hu(i, j) = hu(i, j) + dt * drag * speed * gust * wind_x
          hv(i, j) = hv(i, j) + dt * drag * speed * gust * wind_y
        end if
      end do
    end do
  end subroutine drive

  ! Rain falls everywhere, also on dry ground.
  subroutine fall(dt)
    real(dp), intent(in) :: dt
    integer :: i, j

    do j = 1, ny
      do i = 1, nx
        h(i, j) = h(i, j) + dt * rain
      end do
    end do
  end subroutine fall
end module forces
