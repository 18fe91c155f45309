"""READ and WRITE of internal units: CHARACTER variables that are read or written as if they were files.

Such a statement reads and writes variables and nothing else. Any other input or output changes the state of a file.
"""

from __future__ import annotations

from dataclasses import dataclass
from typing import TYPE_CHECKING, Dict, Optional, Tuple

from . import tree

if TYPE_CHECKING:
    from .accesses import Names

#: The positions of the controls that may be written without their keywords.
_POSITIONS = ("UNIT", "FMT")
#: The controls of an internal unit that are looked at here; others belong to files, or stop in the middle of a record.
_KNOWN = frozenset(["UNIT", "FMT", "IOSTAT", "IOMSG", "ERR", "END"])
#: Controls with which an error, or the end, doesn't end the run.
_GOING_ON = frozenset(["IOSTAT", "ERR", "END", "EOR"])


@dataclass(frozen=True)
class Internal:
    """A READ or a WRITE of an internal unit.

    `format` is none for list-directed ones, and for those by the label of a FORMAT. `status` and `message` are the
    variables of IOSTAT= and IOMSG=. `is_certain` means that all that it names is read and written, or the run ends:
    no error goes on after it.
    """

    reads: bool
    unit: tree.Expression
    format: Optional[tree.Expression]
    is_list_directed: bool
    items: Tuple[tree.Expression, ...]
    status: Optional[tree.Expression] = None
    message: Optional[tree.Expression] = None
    is_certain: bool = True


def internal(statement: tree.InputOutput, names: Names) -> Optional[Internal]:
    """What a statement does with an internal unit; none where its unit is no such one, or may be none."""
    controls = _controls(statement)
    if statement.word not in ("READ", "WRITE") or controls is None or not {"UNIT", "FMT"} <= controls.keys():
        return None
    unit, format_ = controls["UNIT"], controls["FMT"]
    if not controls.keys() <= _KNOWN or not _is_characters(unit, names) or not _is_format(format_, names):
        return None
    return Internal(
        reads=statement.word == "READ",
        unit=unit,
        format=None if isinstance(format_, tree.Star) else format_,
        is_list_directed=isinstance(format_, tree.Star),
        items=statement.items,
        status=controls.get("IOSTAT"),
        message=controls.get("IOMSG"),
        is_certain=not goes_on_after_errors(statement),
    )


def goes_on_after_errors(statement: tree.InputOutput) -> bool:
    """Whether the run may go on after an error, or at the end of a file, with items that weren't looked at."""
    keywords = {control.keyword for control in statement.controls if isinstance(control, tree.Keyword)}
    return bool(keywords & _GOING_ON)


def _controls(statement: tree.InputOutput) -> Optional[Dict[str, tree.Expression]]:
    """The controls by their keywords; none where one occurs twice, or has no keyword and no position."""
    found: Dict[str, tree.Expression] = {}
    for position, control in enumerate(statement.controls):
        if not isinstance(control, tree.Keyword) and position >= len(_POSITIONS):
            return None
        keyword = control.keyword if isinstance(control, tree.Keyword) else _POSITIONS[position]
        if keyword in found:
            return None
        found[keyword] = control.value if isinstance(control, tree.Keyword) else control
    return found


def _is_characters(unit: tree.Expression, names: Names) -> bool:
    """Whether a unit has the form and the type of a CHARACTER variable."""
    name = tree.root_of(unit)
    if not name:
        return False
    part: tree.Expression = unit
    while isinstance(part, tree.Reference):
        part = part.base
    if isinstance(part, tree.Component):
        return names.component_type(part) == "CHARACTER"
    return isinstance(part, tree.Name) and names.type_of(name) == "CHARACTER"


def _is_format(format_: tree.Expression, names: Names) -> bool:
    """Whether a format is one: no group of NAMELIST, and no variable with the label of a FORMAT."""
    if not isinstance(format_, tree.Name):
        return True
    return names.type_of(format_.name) == "CHARACTER" and "GROUP" not in names.attributes_of(format_.name)
