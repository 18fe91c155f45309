"""The faults of a run in words, as docs/RUNS.md lists them."""

from __future__ import annotations

from typing import Dict

FAULTS: Dict[int, str] = {
    1: "a scalar or an element is read that has no value",
    2: "a subscript lies outside its bounds",
    3: "a division by zero, or a power of zero that is one",
    4: "a value leaves its range",
    5: "data are missing, or what is there is no number",
}

#: The fault that comes where data are missing.
NO_DATA = 5
