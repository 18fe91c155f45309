! Waves and a dye in a lake.
program lake
  use kinds
  use settings
  use state
  use setup, only: prepare
  use shores
  use waves
  use forces
  use totals, only: longest_step
  use gauges
  use output
  implicit none
  integer :: step

  call read_settings()
  call prepare()
  call close_shores()
  call place_gauges()
  call headline()
  call report(0)
  do step = 1, steps
    step_length = longest_step()
    call sweep_rows(step_length)
    call close_shores()
    call sweep_columns(step_length)
    call clip()
    call act(step_length)
    call close_shores()
    call sprdr(nx, ny, dye, h, spread * step_length / cell_width()**2)
    call sprdc(nx, ny, dye, h, spread * step_length / cell_height()**2)
    call clip()
    call close_shores()
    time = time + step_length
    call note(step)
    if (mod(step, every) == 0) call report(step)
  end do
  call last_words()
  call tell_gauges()
end program lake
