! Particles in cells: lists by links, forces from neighbouring cells, steps in time.
program cells
  implicit none
  integer, parameter :: n = 200, m = 10
  integer :: head(0:m+1), link(n), cell(n), number(0:m+1), start(m+1), order(n), i, j, k, c
  real :: x(n), v(n), f(n), mass(n), fi, d, best, energy

  do i = 1, n                                != parallel
    x(i) = mod(37*i, 101)*0.099
    v(i) = 0
    mass(i) = 1 + mod(i, 3)
  end do
  head = 0
  number = 0
  do i = 1, n                                != carries HEAD, NUMBER
    c = 1 + int(x(i))
    cell(i) = c
    link(i) = head(c)
    head(c) = i
    number(c) = number(c) + 1
  end do
  start(1) = 1
  do c = 1, m                                != carries START
    start(c+1) = start(c) + number(c)
  end do
  do i = 1, n                                != carries ORDER, START
    order(start(cell(i))) = i
    start(cell(i)) = start(cell(i)) + 1
  end do
  best = huge(best)
  k = 0
  do i = 2, n                                != carries BEST, K
    d = abs(x(i) - x(i-1))
    if (d < best) then
      best = d
      k = i
    end if
  end do
  do i = 1, n                                != parallel
    fi = 0
    do c = cell(i) - 1, cell(i) + 1          != parallel
      j = head(c)
      do while (j > 0)                       != refused while
        if (j /= i) then
          d = x(i) - x(j)
          fi = fi + d/(0.5 + d*d)
        end if
        j = link(j)
      end do
    end do
    f(i) = fi
  end do
  do i = 1, n                                != parallel
    v(i) = v(i) + 0.01*f(i)/mass(i)
    x(i) = min(max(x(i) + 0.01*v(i), 0.0), 9.99)
  end do
  energy = 0
  do i = 1, n                                != parallel
    energy = energy + 0.5*mass(i)*v(i)**2
  end do
  ! Each pair once: an iteration adds to the forces on all later particles.
  f = 0
  do i = 1, n - 1                            != carries F
    do j = i + 1, n                          != carries F
      d = (x(i) - x(j))/(1 + (x(i) - x(j))**2)
      f(i) = f(i) + d
      f(j) = f(j) - d
    end do
  end do
  do i = 1, n - 1                            != carries F
    fi = f(i)
    do j = i + 1, n                          != parallel
      d = x(j)*mass(i)/(1 + abs(x(i) - x(j)))
      fi = fi + d
      f(j) = f(j) - d
    end do
    f(i) = fi
  end do
  print '(4f14.4)', energy, best, sum(abs(f)), sum(x)
  print *, k, start, order(n)
end program cells
