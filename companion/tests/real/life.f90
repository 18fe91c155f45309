! The game of life, with LOGICAL arrays; a border stays dead.
program life
  implicit none
  integer, parameter :: n = 40
  logical :: now(0:n+1, 0:n+1), next(0:n+1, 0:n+1), any_left
  integer :: i, j, k, l, around, step, count_of_cells

  now = .false.
  do j = 1, n                              != parallel
    do i = 1, n                            != parallel
      now(i, j) = mod(i*i + j*3, 5) == 0
    end do
  end do
  next = now
  do step = 1, 12                          != carries NEXT, NOW
    do j = 1, n                            != parallel
      do i = 1, n                          != parallel
        around = 0
        do l = j - 1, j + 1                != parallel
          do k = i - 1, i + 1              != parallel
            if (now(k, l)) around = around + 1
          end do
        end do
        next(i, j) = around == 3 .or. now(i, j) .and. around == 4
      end do
    end do
    do j = 1, n                            != parallel
      now(1:n, j) = next(1:n, j)
    end do
  end do
  any_left = .false.
  count_of_cells = 0
  do j = 1, n                              != parallel
    do i = 1, n                            != parallel
      any_left = any_left .or. now(i, j)
      if (now(i, j)) count_of_cells = count_of_cells + 1
    end do
  end do
  print *, any_left, count_of_cells
end program life
