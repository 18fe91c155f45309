! Gauges at some places, and what the water does over the time: the highest level of each cell, and its mean.
module gauges
  use kinds
  use settings
  use state
  implicit none

  integer, parameter :: places = 6, most_steps = 5000
  integer :: gauge_x(places), gauge_y(places)
  real(dp) :: record(places, most_steps), when(most_steps)
  real(dp) :: highest(nx, ny), mean(nx, ny), turning(nx, ny)
  integer :: noted = 0

contains

  ! The gauges are on a line from the south-west to the north-east.
  subroutine place_gauges()
    integer :: i, j, k

    do k = 1, places
      gauge_x(k) = k * nx / (places + 1)
      gauge_y(k) = k * ny / (places + 1)
    end do
    do j = 1, ny
      do i = 1, nx
        highest(i, j) = bed(i, j) + h(i, j)
        mean(i, j) = 0
        turning(i, j) = 0
      end do
    end do
  end subroutine place_gauges

  ! Notes what a step has brought.
  subroutine note(step)
    integer, intent(in) :: step

    if (step <= most_steps) then
      noted = step
      when(step) = time
      call read_gauges(step)
    end if
    call compare()
    call turn()
  end subroutine note

  subroutine read_gauges(step)
    integer, intent(in) :: step
    integer :: k

    do k = 1, places
      record(k, step) = bed(gauge_x(k), gauge_y(k)) + h(gauge_x(k), gauge_y(k))
    end do
  end subroutine read_gauges

  ! The highest level and the sum of all levels, cell by cell.
  subroutine compare()
    integer :: i, j
    real(dp) :: surface

    do j = 1, ny
      do i = 1, nx
        surface = bed(i, j) + h(i, j)
        if (surface > highest(i, j)) highest(i, j) = surface
        mean(i, j) = mean(i, j) + surface * step_length
      end do
    end do
  end subroutine compare

  ! How the water turns around each cell: the most that was seen.
  subroutine turn()
    integer :: i, j
    real(dp) :: east, west, north, south, curl

    do j = 2, ny - 1
      do i = 2, nx - 1
        east = velocity(h(i + 1, j), hv(i + 1, j))
        west = velocity(h(i - 1, j), hv(i - 1, j))
        north = velocity(h(i, j + 1), hu(i, j + 1))
        south = velocity(h(i, j - 1), hu(i, j - 1))
        curl = (east - west) / (2 * cell_width()) - (north - south) / (2 * cell_height())
        turning(i, j) = max(turning(i, j), abs(curl))
      end do
    end do
  end subroutine turn

  ! The range of each gauge, and how rough it was: the sum of what its level changed from step to step.
  subroutine tell_gauges()
    integer :: k, n
    real(dp) :: least, most, rough, greatest

    if (noted == 0) return
    do k = 1, places
      least = record(k, 1)
      most = record(k, 1)
      rough = 0
      do n = 2, noted
        least = min(least, record(k, n))
        most = max(most, record(k, n))
        rough = rough + abs(record(k, n) - record(k, n - 1))
      end do
      print '(a, i3, a, 3f9.4)', 'gauge ', k, ':', least, most, rough
    end do
    call smooth_levels(greatest)
    print '(a, f9.4, a, es11.3)', 'highest level ', greatest, ', turning ', quickest_turn()
  end subroutine tell_gauges

  ! The mean levels, and the highest of all that were seen.
  subroutine smooth_levels(greatest)
    real(dp), intent(out) :: greatest
    integer :: i, j

    greatest = highest(1, 1)
    do j = 1, ny
      do i = 1, nx
        mean(i, j) = mean(i, j) / time
        greatest = max(greatest, highest(i, j))
      end do
    end do
  end subroutine smooth_levels

  ! The most that the water has turned anywhere.
  function quickest_turn() result(found)
    real(dp) :: found
    integer :: i, j

    found = 0
    do j = 2, ny - 1
      do i = 2, nx - 1
        found = max(found, turning(i, j))
      end do
    end do
  end function quickest_turn
end module gauges
