! Kinds, the size of the grid, and what a run is told.
module kinds
  implicit none
  integer, parameter :: dp = kind(1.0d0)

  ! Cells in each direction. Around them is a frame of one cell, which the shores fill.
  integer, parameter :: nx = 240, ny = 200

  real(dp), parameter :: gravity = 9.81_dp
  real(dp), parameter :: pi = 3.14159265358979_dp

  ! Below this depth, in metres, a cell counts as dry.
  real(dp), parameter :: dry = 1.0e-3_dp
end module kinds

! What may be changed from run to run. All lengths are in metres, all times in seconds.
module settings
  use kinds
  implicit none

  integer :: steps = 60          ! steps in time
  integer :: every = 20          ! so many steps between two lines of the report
  real(dp) :: width = 2400.0_dp  ! of the basin, from west to east
  real(dp) :: height = 2000.0_dp ! of the basin, from south to north
  real(dp) :: level = 10.0_dp    ! of the lake at rest
  real(dp) :: courant = 0.4_dp   ! of the distance between two cells, so far a wave may go in a step
  real(dp) :: roughness = 0.03_dp
  real(dp) :: rain = 2.0e-6_dp   ! metres a second
  real(dp) :: spread = 1.5_dp    ! how fast the dye spreads, in square metres a second
  real(dp) :: wind_x = 8.0_dp, wind_y = 3.0_dp

contains

  ! Takes settings from standard input: pairs of a word and a number, up to the word END. Without any the run is that
  ! of the values above.
  subroutine read_settings()
    character(len=80) :: line
    character(len=16) :: word
    real(dp) :: value
    integer :: status

    do
      read (*, '(a)', iostat=status) line
      if (status /= 0) exit
      if (len_trim(line) == 0) cycle
      read (line, *, iostat=status) word
      if (status /= 0 .or. word == 'END') exit
      read (line, *, iostat=status) word, value
      if (status /= 0) then
        print '(2a)', 'not understood: ', trim(line)
        stop 1
      end if
      call set(word, value)
    end do
  end subroutine read_settings

  subroutine set(word, value)
    character(len=*), intent(in) :: word
    real(dp), intent(in) :: value

    select case (word)
    case ('STEPS')
      steps = nint(value)
    case ('EVERY')
      every = max(1, nint(value))
    case ('WIDTH')
      width = value
    case ('HEIGHT')
      height = value
    case ('LEVEL')
      level = value
    case ('COURANT')
      courant = value
    case ('ROUGHNESS')
      roughness = value
    case ('RAIN')
      rain = value
    case ('SPREAD')
      spread = value
    case default
      print '(2a)', 'no such setting: ', trim(word)
      stop 1
    end select
  end subroutine set

  ! The distance of two cells from west to east.
  pure function cell_width() result(dx)
    real(dp) :: dx
    dx = width / nx
  end function cell_width

  ! The distance of two cells from south to north.
  pure function cell_height() result(dy)
    real(dp) :: dy
    dy = height / ny
  end function cell_height
end module settings
