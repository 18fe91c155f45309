! The lake as a run begins.
module setup
  use kinds
  use settings
  use state
  implicit none

contains

  subroutine prepare()
    call dig()
    call smooth(4)
    call fill()
    call pour_dye()
  end subroutine prepare

  ! A bowl with two hills on its ground.
  subroutine dig()
    integer :: i, j
    real(dp) :: x, y, bowl

    do j = 0, ny + 1
      do i = 0, nx + 1
        x = (i - 0.5_dp) / nx
        y = (j - 0.5_dp) / ny
        bowl = 12.0_dp * ((2 * x - 1)**2 + (2 * y - 1)**2) / 2
        bed(i, j) = bowl + hill(x, y, 0.3_dp, 0.4_dp, 4.0_dp) + hill(x, y, 0.65_dp, 0.7_dp, 6.0_dp)
      end do
    end do
  end subroutine dig

  ! A hill of a height around a place.
  pure function hill(x, y, x0, y0, top) result(height_here)
    real(dp), intent(in) :: x, y, x0, y0, top
    real(dp) :: height_here, distance

    distance = (x - x0)**2 + (y - y0)**2
    height_here = top * exp(-distance * 80)
  end function hill

  ! Each cell of the ground becomes the mean of its neighbours, some times.
  subroutine smooth(times)
    integer, intent(in) :: times
    real(dp) :: before(0:nx + 1, 0:ny + 1)
    integer :: i, j, time_of

    do time_of = 1, times
      do j = 0, ny + 1
        do i = 0, nx + 1
          before(i, j) = bed(i, j)
        end do
      end do
      do j = 1, ny
        do i = 1, nx
          bed(i, j) = (before(i - 1, j) + before(i + 1, j) + before(i, j - 1) + before(i, j + 1)) / 4
        end do
      end do
    end do
  end subroutine smooth

  ! Water up to the level of the lake, with a wave in the south-west.
  subroutine fill()
    integer :: i, j
    real(dp) :: surface, x, y

    do j = 0, ny + 1
      do i = 0, nx + 1
        x = (i - 0.5_dp) / nx
        y = (j - 0.5_dp) / ny
        surface = level + hill(x, y, 0.35_dp, 0.45_dp, 1.5_dp)
        h(i, j) = max(0.0_dp, surface - bed(i, j))
        hu(i, j) = 0
        hv(i, j) = 0
      end do
    end do
  end subroutine fill

  ! Dye in a square in the middle.
  subroutine pour_dye()
    integer :: i, j

    do j = 0, ny + 1
      do i = 0, nx + 1
        if (abs(2 * i - nx) < nx / 4 .and. abs(2 * j - ny) < ny / 4) then
          dye(i, j) = h(i, j)
        else
          dye(i, j) = 0
        end if
      end do
    end do
  end subroutine pour_dye
end module setup
