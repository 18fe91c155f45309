! The lake: what is known of each cell.
module state
  use kinds
  implicit none

  real(dp) :: bed(0:nx + 1, 0:ny + 1)    ! height of the ground
  real(dp) :: h(0:nx + 1, 0:ny + 1)      ! depth of the water
  real(dp) :: hu(0:nx + 1, 0:ny + 1)     ! depth times velocity to the east
  real(dp) :: hv(0:nx + 1, 0:ny + 1)     ! depth times velocity to the north
  real(dp) :: dye(0:nx + 1, 0:ny + 1)    ! depth times concentration of a dye

  real(dp) :: time = 0.0_dp
  real(dp) :: step_length = 0.0_dp

contains

  ! A velocity, which is 0 where there is no water.
  elemental function velocity(depth, momentum) result(u)
    real(dp), intent(in) :: depth, momentum
    real(dp) :: u

    u = 0.0_dp
    if (depth > dry) u = momentum / depth
  end function velocity

  ! How fast the fastest wave of a cell goes.
  elemental function wave_speed(depth, momentum) result(speed)
    real(dp), intent(in) :: depth, momentum
    real(dp) :: speed

    speed = 0.0_dp
    if (depth > dry) speed = abs(momentum / depth) + sqrt(gravity * depth)
  end function wave_speed
end module state
