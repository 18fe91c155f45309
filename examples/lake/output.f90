! The report, and a picture of the dye.
module output
  use kinds
  use settings
  use state
  use totals
  implicit none

  character(len=*), parameter :: shades = ' .:-=+*#%@'

contains

  subroutine headline()
    print '(a)', '  step    time      volume        dye      energy   deepest   fastest     wet'
  end subroutine headline

  subroutine report(step)
    integer, intent(in) :: step
    type(extremes) :: found

    call look(found)
    print '(i6, f8.1, 3es12.4, f10.4, f10.4, i8)', step, time, volume(), colour(), energy(), &
        found%deepest, found%fastest, found%wet
  end subroutine report

  subroutine last_words()
    integer :: i, j, k

    call find_deepest(i, j)
    print '(a, i4, a, i4)', 'deepest at ', i, ',', j
    call sort_depths()
    do k = 1, classes
      print '(i3, a, i8)', k - 1, ' m:', histogram(k)
    end do
    call draw(12)
    call write_rows('lake.txt')
  end subroutine last_words

  ! The dye as letters, a letter for a square of cells.
  subroutine draw(across)
    integer, intent(in) :: across
    character(len=nx) :: line
    real(dp) :: mean, water
    integer :: i, j, k, letters, shade

    letters = nx / across
    do j = ny - across + 1, 1, -across
      line = ' '
      do k = 1, letters
        mean = 0
        water = dry
        do i = (k - 1) * across + 1, k * across
          mean = mean + dye(i, j)
          water = water + h(i, j)
        end do
        shade = 1 + int(9 * min(1.0_dp, mean / water))
        line(k:k) = shades(shade:shade)
      end do
      print '(2a)', '  |', line(1:letters)
    end do
  end subroutine draw

  ! Means of the rows, in a file.
  subroutine write_rows(name)
    character(len=*), intent(in) :: name
    real(dp) :: depth(ny), speed(ny)
    integer :: i, j, unit

    do j = 1, ny
      depth(j) = 0
      speed(j) = 0
      do i = 1, nx
        depth(j) = depth(j) + h(i, j)
        speed(j) = speed(j) + velocity(h(i, j), hu(i, j))
      end do
      depth(j) = depth(j) / nx
      speed(j) = speed(j) / nx
    end do
    open (newunit=unit, file=name, action='write')
    do j = 1, ny
      write (unit, '(i5, 2f12.6)') j, depth(j), speed(j)
    end do
    close (unit)
  end subroutine write_rows
end module output
