! What is known of the lake as a whole.
module totals
  use kinds
  use settings
  use state
  implicit none

  integer, parameter :: classes = 12
  integer :: histogram(classes)

  type extremes
    real(dp) :: deepest, fastest
    integer :: wet
  end type extremes

contains

  ! The longest step in time in which no wave goes too far.
  function longest_step() result(dt)
    real(dp) :: dt, quickest
    integer :: i, j

    quickest = 1.0e-6_dp
    do j = 1, ny
      do i = 1, nx
        quickest = max(quickest, wave_speed(h(i, j), hu(i, j)) / cell_width())
        quickest = max(quickest, wave_speed(h(i, j), hv(i, j)) / cell_height())
      end do
    end do
    dt = courant / quickest
  end function longest_step

  ! All water, in cubic metres.
  function volume() result(sum_of)
    real(dp) :: sum_of
    integer :: i, j

    sum_of = 0
    do j = 1, ny
      do i = 1, nx
        sum_of = sum_of + h(i, j)
      end do
    end do
    sum_of = sum_of * cell_width() * cell_height()
  end function volume

  ! All dye.
  function colour() result(sum_of)
    real(dp) :: sum_of
    integer :: i, j

    sum_of = 0
    do j = 1, ny
      do i = 1, nx
        sum_of = sum_of + dye(i, j)
      end do
    end do
    sum_of = sum_of * cell_width() * cell_height()
  end function colour

  ! Motion, and height above the ground's lowest point.
  function energy() result(sum_of)
    real(dp) :: sum_of, u, v
    integer :: i, j

    sum_of = 0
    do j = 1, ny
      do i = 1, nx
        u = velocity(h(i, j), hu(i, j))
        v = velocity(h(i, j), hv(i, j))
        sum_of = sum_of + h(i, j) * (u**2 + v**2) / 2 + gravity * h(i, j) * (bed(i, j) + h(i, j) / 2)
      end do
    end do
    sum_of = sum_of * cell_width() * cell_height()
  end function energy

  subroutine look(found)
    type(extremes), intent(out) :: found
    real(dp) :: deepest, fastest
    integer :: i, j, wet

    deepest = 0
    fastest = 0
    wet = 0
    do j = 1, ny
      do i = 1, nx
        deepest = max(deepest, h(i, j))
        fastest = max(fastest, abs(velocity(h(i, j), hu(i, j))), abs(velocity(h(i, j), hv(i, j))))
        if (h(i, j) > dry) wet = wet + 1
      end do
    end do
    found%deepest = deepest
    found%fastest = fastest
    found%wet = wet
  end subroutine look

  ! How many cells have which depth, in metres.
  subroutine sort_depths()
    integer :: i, j, k

    do k = 1, classes
      histogram(k) = 0
    end do
    do j = 1, ny
      do i = 1, nx
        k = min(classes, 1 + int(h(i, j)))
        histogram(k) = histogram(k) + 1
      end do
    end do
  end subroutine sort_depths

  ! The place of the deepest water: the first one in order of rows.
  subroutine find_deepest(i_deep, j_deep)
    integer, intent(out) :: i_deep, j_deep
    integer :: i, j

    i_deep = 1
    j_deep = 1
    do j = 1, ny
      do i = 1, nx
        if (h(i, j) > h(i_deep, j_deep)) then
          i_deep = i
          j_deep = j
        end if
      end do
    end do
  end subroutine find_deepest
end module totals
