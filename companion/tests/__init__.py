"""Tests of the companion. They want the program ped by PEDX_PED; tools/check-companion.sh runs them all.

Those of real Fortran, `real_*.py`, want the library fparser instead; tools/check-real.sh runs them.
"""

import sys

# As the command line does it.
sys.setrecursionlimit(5000)
