"""Where the variables of common blocks are, so that units agree that call them otherwise.

A variable is found by the bytes that it has in its block. Where a length isn't known, or padding may come before a
variable, nothing is known of the places of it and all after it: they may be any part of the block.
"""

from __future__ import annotations

from dataclasses import dataclass
from typing import Dict, Iterable, List, Optional, Set, Tuple

from .symbols import Symbol, Symbols
from .units import Unit

#: The first byte and the one after the last.
Span = Tuple[int, int]


@dataclass(frozen=True)
class Shared:
    """A variable that procedures share, the same for all units.

    `home` is the path of the unit that declares it, and `name` its name there. For one of a common block `home` is the
    block, `/NAME/`, `name` is empty, and `span` is its place, none where that isn't known. `form` are its type, its kind
    and its bounds. `part` is a component of a structure, as in `components.Part`.
    """

    home: str
    name: str
    span: Optional[Span] = None
    form: Tuple[object, ...] = ()
    part: str = ""

    @property
    def is_common(self) -> bool:
        """Whether it is in a common block."""
        return self.home.startswith("/")

    def overlaps(self, other: Shared) -> bool:
        """Whether two variables may have storage in common."""
        if self.home != other.home:
            return False
        if not self.is_common:
            return self.name == other.name
        if self.span is None or other.span is None:
            return True
        return self.span[0] < other.span[1] and other.span[0] < self.span[1]

    def is_same(self, other: Shared) -> bool:
        """Whether two variables are one for certain, with the same elements."""
        if not self.is_common:
            return self.home == other.home and self.name == other.name
        return self == other and self.span is not None

    def is_part_of(self, others: Iterable[Shared]) -> bool:
        """Whether all of it is in some variables that overlap it, so that these stand for it."""
        known = list(others)
        if not self.is_common:
            return bool(known)
        if self.span is None:
            return False
        first, last = self.span
        for span in sorted(one.span for one in known if one.span is not None):
            if span[0] > first:
                break
            first = max(first, span[1])
        return first >= last


class Commons:
    """The common blocks of some units."""

    def __init__(self, all_symbols: Iterable[Symbols]) -> None:
        self._places: Dict[Tuple[Unit, str], Dict[str, Optional[Span]]] = {}
        self._names: Dict[str, Dict[Span, str]] = {}
        #: The blocks of which it isn't known, for some variable, where it is.
        self._open: Set[str] = set()
        for symbols in all_symbols:
            for block in symbols.declarations.blocks:
                self._add(symbols, block)

    def _add(self, symbols: Symbols, block: str) -> None:
        places = _places(symbols, block)
        self._places[symbols.unit, block] = places
        names = self._names.setdefault(block, {})
        if any(not group.isdisjoint(places) for group in symbols.declarations.equivalences):
            self._open.add(block)
        for name, span in places.items():
            if span is None:
                self._open.add(block)
            else:
                names.setdefault(span, name)

    def shared(self, symbols: Symbols, symbol: Symbol) -> List[Shared]:
        """What a variable of a common block, seen from a unit, may be; more than one where it's in EQUIVALENCE."""
        home = symbols.home_of(symbol) or symbols
        if symbol.block:
            span = self._places.get((home.unit, symbol.block), {}).get(symbol.original)
            return [Shared(symbol.block, "", span, (symbol.type, symbol.kind, symbol.extents))]
        return [Shared(block, "") for block in sorted(_blocks_of_group(home, symbol.original))]

    def hidden_name(self, shared: Shared) -> str:
        """A name for a part of a common block of which a unit has no variable: the same for all that may overlap."""
        groups = self._groups(shared.home)
        if len(groups) < 2 or shared.span is None or shared.home in self._open:
            return shared.home
        for span, name in groups:
            if span[0] < shared.span[1] and shared.span[0] < span[1]:
                return f"{shared.home}:{name}"
        return shared.home

    def _groups(self, block: str) -> List[Tuple[Span, str]]:
        """The parts of a block that no variable crosses, each with the name of a variable that begins there."""
        found: List[Tuple[Span, str]] = []
        for span, name in sorted(self._names.get(block, {}).items()):
            if found and span[0] < found[-1][0][1]:
                (first, last), known = found[-1]
                found[-1] = ((first, max(last, span[1])), known)
            else:
                found.append((span, name))
        return found


def _places(symbols: Symbols, block: str) -> Dict[str, Optional[Span]]:
    """The places of the variables of a block in one unit."""
    found: Dict[str, Optional[Span]] = {}
    offset: Optional[int] = 0
    for name in symbols.declarations.blocks[block]:
        size = _element_size(symbols.get(name))
        count = _elements(symbols.get(name))
        if offset is None or size is None or count is None or offset % size:
            offset = found[name] = None
        else:
            found[name] = (offset, offset + size * count)
            offset += size * count
    return found


def _element_size(symbol: Symbol) -> Optional[int]:
    if symbol.kind is None or symbol.type not in ("INTEGER", "REAL", "LOGICAL", "COMPLEX"):
        return None
    return symbol.kind * (2 if symbol.type == "COMPLEX" else 1) or None


def _elements(symbol: Symbol) -> Optional[int]:
    count = 1
    for lower, upper in symbol.extents:
        if lower is None or upper is None:
            return None
        count *= max(upper - lower + 1, 0)
    return count


def _blocks_of_group(symbols: Symbols, name: str) -> Set[str]:
    """The common blocks that a name is in by EQUIVALENCE."""
    reached = {name}
    while True:
        more = set().union(*(group for group in symbols.declarations.equivalences if group & reached)) | reached
        if more == reached:
            break
        reached = more
    names = symbols.declarations.names
    return {names[one].block for one in reached if one in names and names[one].block}

