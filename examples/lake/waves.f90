! Waves: how water, its momentum and the dye go from cell to cell. A step goes along all rows, and then along all columns.
module waves
  use kinds
  use settings
  use state
  implicit none

  ! What goes through the faces of one row or column. Face K is between the cells K and K + 1.
  real(dp) :: through(4, 0:max(nx, ny))

contains

  ! Along all rows, from west to east.
  subroutine sweep_rows(dt)
    real(dp), intent(in) :: dt
    integer :: j

    do j = 1, ny
      call row(j, dt / cell_width(), bed, h, hu, hv, dye)
    end do
  end subroutine sweep_rows

  ! Along all columns, from south to north.
  subroutine sweep_columns(dt)
    real(dp), intent(in) :: dt
    integer :: i

    do i = 1, nx
      call column(i, dt / cell_height(), bed, h, hu, hv, dye)
    end do
  end subroutine sweep_columns

  ! One row. RATIO is the length of the step by the distance of two cells.
  subroutine row(j, ratio, bed, h, hu, hv, dye)
    integer, intent(in) :: j
    real(dp), intent(in) :: ratio
    real(dp), intent(in) :: bed(0:nx + 1, 0:ny + 1)
    real(dp), intent(inout), dimension(0:nx + 1, 0:ny + 1) :: h, hu, hv, dye
    integer :: i
    real(dp) :: left(4), right(4), face(4), top, slope

    do i = 0, nx
      top = max(bed(i, j), bed(i + 1, j))
      call side(h(i, j), hu(i, j), hv(i, j), dye(i, j), bed(i, j), top, left)
      call side(h(i + 1, j), hu(i + 1, j), hv(i + 1, j), dye(i + 1, j), bed(i + 1, j), top, right)
      call flux(left, right, face)
      through(1, i) = face(1)
      through(2, i) = face(2)
      through(3, i) = face(3)
      through(4, i) = face(4)
    end do
    do i = 1, nx
      slope = push(h(i, j), bed(i, j), bed(i - 1, j), bed(i + 1, j))
      h(i, j) = h(i, j) - ratio * (through(1, i) - through(1, i - 1))
      hu(i, j) = hu(i, j) - ratio * (through(2, i) - through(2, i - 1) + slope)
      hv(i, j) = hv(i, j) - ratio * (through(3, i) - through(3, i - 1))
      dye(i, j) = dye(i, j) - ratio * (through(4, i) - through(4, i - 1))
    end do
  end subroutine row

  ! One column, as a row with the two momenta exchanged.
  subroutine column(i, ratio, bed, h, hu, hv, dye)
    integer, intent(in) :: i
    real(dp), intent(in) :: ratio
    real(dp), intent(in) :: bed(0:nx + 1, 0:ny + 1)
    real(dp), intent(inout), dimension(0:nx + 1, 0:ny + 1) :: h, hu, hv, dye
    integer :: j
    real(dp) :: left(4), right(4), face(4), top, slope

    do j = 0, ny
      top = max(bed(i, j), bed(i, j + 1))
      call side(h(i, j), hv(i, j), hu(i, j), dye(i, j), bed(i, j), top, left)
      call side(h(i, j + 1), hv(i, j + 1), hu(i, j + 1), dye(i, j + 1), bed(i, j + 1), top, right)
      call flux(left, right, face)
      through(1, j) = face(1)
      through(2, j) = face(2)
      through(3, j) = face(3)
      through(4, j) = face(4)
    end do
    do j = 1, ny
      slope = push(h(i, j), bed(i, j), bed(i, j - 1), bed(i, j + 1))
      h(i, j) = h(i, j) - ratio * (through(1, j) - through(1, j - 1))
      hv(i, j) = hv(i, j) - ratio * (through(2, j) - through(2, j - 1) + slope)
      hu(i, j) = hu(i, j) - ratio * (through(3, j) - through(3, j - 1))
      dye(i, j) = dye(i, j) - ratio * (through(4, j) - through(4, j - 1))
    end do
  end subroutine column

  ! What a cell has at a face: its water above TOP, the higher ground of the two cells.
  pure subroutine side(depth, along, across, colour, ground, top, values)
    real(dp), intent(in) :: depth, along, across, colour, ground, top
    real(dp), intent(out) :: values(4)
    real(dp) :: share

    share = 0
    if (depth > dry) share = max(0.0_dp, depth + ground - top) / depth
    values(1) = share * depth
    values(2) = share * along
    values(3) = share * across
    values(4) = share * colour
  end subroutine side

  ! What goes through a face between two cells (Rusanov).
  pure subroutine flux(left, right, face)
    real(dp), intent(in) :: left(4), right(4)
    real(dp), intent(out) :: face(4)
    real(dp) :: u_left, u_right, speed
    integer :: k

    u_left = velocity(left(1), left(2))
    u_right = velocity(right(1), right(2))
    speed = max(wave_speed(left(1), left(2)), wave_speed(right(1), right(2)))
    do k = 1, 4
      face(k) = (left(k) * u_left + right(k) * u_right) / 2 - speed * (right(k) - left(k)) / 2
    end do
    face(2) = face(2) + gravity * (left(1)**2 + right(1)**2) / 4
  end subroutine flux

  ! What the ground on both sides takes off the pressure.
  pure function push(depth, ground, before, after) result(force)
    real(dp), intent(in) :: depth, ground, before, after
    real(dp) :: force, low, high

    low = max(0.0_dp, depth + ground - max(ground, before))
    high = max(0.0_dp, depth + ground - max(ground, after))
    force = gravity * (low**2 - high**2) / 2
  end function push
end module waves
