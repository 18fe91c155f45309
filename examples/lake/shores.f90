! The frame around the cells: walls, which waves come back from.
module shores
  use kinds
  use state
  implicit none

contains

  subroutine close_shores()
    call west_and_east()
    call south_and_north()
  end subroutine close_shores

  subroutine west_and_east()
    integer :: j

    do j = 1, ny
      h(0, j) = h(1, j)
      hu(0, j) = -hu(1, j)
      hv(0, j) = hv(1, j)
      dye(0, j) = dye(1, j)
      bed(0, j) = bed(1, j)
      h(nx + 1, j) = h(nx, j)
      hu(nx + 1, j) = -hu(nx, j)
      hv(nx + 1, j) = hv(nx, j)
      dye(nx + 1, j) = dye(nx, j)
      bed(nx + 1, j) = bed(nx, j)
    end do
  end subroutine west_and_east

  subroutine south_and_north()
    integer :: i

    do i = 0, nx + 1
      h(i, 0) = h(i, 1)
      hu(i, 0) = hu(i, 1)
      hv(i, 0) = -hv(i, 1)
      dye(i, 0) = dye(i, 1)
      bed(i, 0) = bed(i, 1)
      h(i, ny + 1) = h(i, ny)
      hu(i, ny + 1) = hu(i, ny)
      hv(i, ny + 1) = -hv(i, ny)
      dye(i, ny + 1) = dye(i, ny)
      bed(i, ny + 1) = bed(i, ny)
    end do
  end subroutine south_and_north

  ! Water and dye that are below nothing are nothing.
  subroutine clip()
    integer :: i, j

    do j = 1, ny
      do i = 1, nx
        if (h(i, j) <= dry) then
          hu(i, j) = 0
          hv(i, j) = 0
        end if
        h(i, j) = max(h(i, j), 0.0_dp)
        dye(i, j) = min(max(dye(i, j), 0.0_dp), h(i, j))
      end do
    end do
  end subroutine clip
end module shores
