"""Components of structures as variables of their own: `P(I)%X(J)` is an element of an array `P%X` of two dimensions.

Two components of a type have no storage in common, so each that is plain data counts for itself, with the subscripts of
all parts of its designator. A structure as a whole stands for all its components. That holds where the type is wholly
known, without pointers on the way; any other structure is `Trouble`.
"""

from __future__ import annotations

from dataclasses import dataclass, replace
from typing import TYPE_CHECKING, FrozenSet, Iterator, List, Mapping, Optional, Sequence, Tuple

from . import tree
from .designators import chain_of
from .units import InterfaceBlock, Written

if TYPE_CHECKING:
    from .symbols import Symbol, Symbols

#: All elements of a dimension.
ALL = tree.Section(None, None, None)

#: The most components of a structure, with those of structures in it.
_MOST_LEAVES = 200
_STRUCTURES = ("TYPE", "CLASS")
#: Properties of a variable that are written as components.
_INQUIRIES = frozenset(["KIND", "LEN"])


class NotPlain(Exception):
    """Why a structure as a whole isn't plain data, in words that follow its name."""

    def __init__(self, words: str) -> None:
        super().__init__(words)
        self.words = words


@dataclass(frozen=True)
class TypeComponents:
    """The data components of a derived type, with those of the types that it extends.

    `is_complete` is false where a type that it extends isn't in the files, or a line of it can't be read, and for types
    with parameters. `home` is the unit whose types the components' types are. A component that stands for a type that is
    extended has the attribute `PARENT`. `bindings` are the lines after CONTAINS, with those of types that it extends.
    """

    name: str
    components: Mapping[str, Symbol]
    is_complete: bool
    home: Symbols
    bindings: Tuple[Written, ...] = ()

    def component(self, name: str) -> Optional[Symbol]:
        """A data component; none where there is none of this name: it's bound to the type, or the program is wrong."""
        return self.components.get(name)


@dataclass(frozen=True)
class Part:
    """A component, or a structure in another one: `%X%Y`, and the subscripts of all its dimensions.

    Those of the structure itself come first. A dimension without a subscript has `ALL`.
    """

    name: str
    subscripts: Tuple[tree.Expression, ...]
    symbol: Symbol
    #: The unit in which its type is visible.
    home: Symbols
    #: How many of the subscripts, counted from the last, are those of the last part that has dimensions.
    last: int = 0

    @property
    def is_structure(self) -> bool:
        """Whether it is a structure, and so stands for all its components."""
        return self.symbol.type in _STRUCTURES


@dataclass(frozen=True)
class Leaf:
    """A component of a structure that is no structure itself: `%X%Y`, and the number of its dimensions."""

    name: str
    rank: int
    attributes: FrozenSet[str]


def part_of(symbols: Symbols, designator: tree.Expression) -> Optional[Part]:
    """The part of a structure that a designator is; none where it's none, has a POINTER, or its type isn't known."""
    chain = chain_of(designator)
    if not isinstance(chain[0], tree.Name):
        return None
    symbol = symbols.get(chain[0].name)
    if symbol.type not in _STRUCTURES:
        return None
    found: List[str] = []
    last, index = 0, 1
    subscripts: List[tree.Expression] = []
    home = symbols
    while True:
        index, last = _take_subscripts(chain, index, symbol, subscripts, last)
        if index >= len(chain) or symbol.type not in _STRUCTURES:
            return Part("".join(found), tuple(subscripts), symbol, home, last)
        here = chain[index]
        known = home.components(symbol)
        inner = known.component(here.component) if known is not None and isinstance(here, tree.Component) else None
        if known is None or inner is None or "POINTER" in inner.attributes:
            return None
        if "PARENT" not in inner.attributes:
            found.append(f"%{inner.name}")
        symbol, home, index = inner, known.home, index + 1


def _take_subscripts(
    chain: Sequence[tree.Expression], index: int, symbol: Symbol, found: List[tree.Expression], last: int
) -> Tuple[int, int]:
    """Adds the subscripts of one part of a designator; answers where the next one begins."""
    if not symbol.rank:
        return index, last
    here = chain[index] if index < len(chain) else None
    if isinstance(here, tree.Reference):
        found.extend(here.arguments)
        return index + 1, len(here.arguments)
    found.extend([ALL] * symbol.rank)
    return index, symbol.rank


def component_symbol(symbols: Symbols, name: str) -> Optional[Symbol]:
    """`P%X` as a variable of a unit: a component with the dimensions of all its parts; none where it isn't known."""
    root, *components = name.split("%")
    whole = symbols.get(root)
    symbol, home = whole, symbols
    bounds, extents, attributes = whole.bounds, whole.extents, whole.attributes
    for component in components:
        known = home.components(symbol)
        inner = None if known is None else known.component(component)
        if known is None or inner is None:
            return None
        symbol, home = inner, known.home
        bounds, extents = bounds + inner.bounds, extents + inner.extents
        attributes = attributes | inner.attributes
    return replace(
        symbol, name=name, bounds=bounds, extents=extents, attributes=attributes, storage=whole.storage,
        group=whole.group, block=whole.block, home=whole.home, original=whole.original + name[len(root):],
    )


# --- Structures as a whole -------------------------------------------------------------------------------------------


def leaves_of(symbols: Symbols, symbol: Symbol) -> Tuple[Leaf, ...]:
    """All components of a structure that are no structures themselves. Raises NotPlain."""
    found: List[Leaf] = []
    for leaf in _leaves(symbols, symbol, frozenset()):
        found.append(leaf)
        if len(found) > _MOST_LEAVES:
            raise NotPlain(f"has more than {_MOST_LEAVES} components")
    return tuple(found)


def _leaves(home: Symbols, symbol: Symbol, seen: FrozenSet[Tuple[str, str]]) -> Iterator[Leaf]:
    known = _known(home, symbol)
    key = known.home.unit.path, known.name
    if key in seen:
        raise NotPlain(f"is of the type {known.name}, which has itself as a component")
    for name, inner in known.components.items():
        if "PARENT" in inner.attributes:
            continue
        if inner.attributes & {"POINTER", "CODIMENSION"}:
            raise NotPlain(f"is of the type {known.name}, whose component {name} is a POINTER")
        if inner.type not in _STRUCTURES:
            yield Leaf(f"%{name}", inner.rank, inner.attributes)
            continue
        for leaf in _leaves(known.home, inner, seen | {key}):
            yield Leaf(f"%{name}{leaf.name}", inner.rank + leaf.rank, inner.attributes | leaf.attributes)


def _known(home: Symbols, symbol: Symbol) -> TypeComponents:
    """The components of a structure's type. Raises NotPlain."""
    if symbol.type != "TYPE":
        raise NotPlain("may have any type that extends its own")
    known = home.components(symbol)
    if known is None:
        raise NotPlain(f"is of the type {symbol.derived}, which isn't in the files")
    if not known.is_complete:
        raise NotPlain(f"is of the type {known.name}, of which not all is known")
    return known


def key_of(symbols: Symbols, symbol: Symbol) -> Optional[Tuple[str, str]]:
    """The unit that defines the type of a variable, and its name there; none where it isn't known, or is no TYPE."""
    known = symbols.components(symbol) if symbol.type == "TYPE" else None
    return None if known is None else (known.home.unit.path, known.name)


def check_assignment(symbols: Symbols, part: Part) -> None:
    """Raises NotPlain where an assignment of a structure may be a procedure of the user's."""
    if symbols.missing_modules:
        raise NotPlain("may be assigned by a procedure of a module that isn't in the files")
    for unit in symbols.seen_units():
        for declared in unit.specification:
            head = declared.head.statement if isinstance(declared, InterfaceBlock) else None
            if isinstance(head, tree.Interface) and head.generic.replace(" ", "") == "ASSIGNMENT(=)":
                raise NotPlain(f"may be assigned by a procedure: {unit.path} has an assignment of its own")
    _check_bindings(part.home, part.symbol, frozenset())


def has_final(known: TypeComponents, seen: FrozenSet[Tuple[str, str]] = frozenset()) -> bool:
    """Whether a procedure is called where a variable of a type ends."""
    key = known.home.unit.path, known.name
    if any(line.item.text.upper().lstrip().startswith("FINAL") for line in known.bindings):
        return True
    for one in () if key in seen else known.components.values():
        inner = None if "POINTER" in one.attributes else known.home.components(one)
        if inner is not None and has_final(inner, seen | {key}):
            return True
    return False


def _check_bindings(home: Symbols, symbol: Symbol, seen: FrozenSet[Tuple[str, str]]) -> None:
    """Raises NotPlain where a type, or that of a component, has FINAL or a generic binding."""
    known = _known(home, symbol)
    key = known.home.unit.path, known.name
    if key in seen:
        return
    for line in known.bindings:
        text = line.item.text.upper().replace(" ", "")
        if text.startswith(("FINAL", "GENERIC")):
            raise NotPlain(f"is of the type {known.name}, which has {text.split(':')[0]}")
    for inner in known.components.values():
        if inner.type in _STRUCTURES:
            _check_bindings(known.home, inner, seen | {key})

