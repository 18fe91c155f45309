"""Which names share storage, among those of units that are visible at once."""

from __future__ import annotations

from typing import TYPE_CHECKING, Dict, List, Set, Tuple

if TYPE_CHECKING:
    from .symbols import Symbols


class Sharing:
    """Finds the names that may share storage, among those of some units that are visible at once."""

    def __init__(self, visible: List[Symbols]) -> None:
        self._visible = visible
        self._parents: Dict[Tuple[str, str], Tuple[str, str]] = {}

    def groups(self) -> Dict[Tuple[str, str], str]:
        """For each name that shares its storage, by its unit's path and its name there, its group."""
        in_blocks: Dict[str, Set[str]] = {}
        for symbols in self._visible:
            path, declarations = symbols.unit.path, symbols.declarations
            for group in declarations.equivalences:
                self._unite([(path, name) for name in sorted(group)])
                for name in group:
                    block = declarations.names[name].block
                    if block:
                        in_blocks.setdefault(block, set()).update([path, "EQUIVALENCE"])
            for block in declarations.blocks:
                in_blocks.setdefault(block, set()).add(path)
            results = [name for name, facts in declarations.names.items() if "RESULT" in facts.attributes]
            self._unite([(path, name) for name in results] if len(results) > 1 else [])
            for original in symbols.originals():
                self._parents.setdefault(original, original)
        for block, places in in_blocks.items():
            if len(places) > 1:
                self._unite_block(block)
        return {name: "{}:{}".format(*self._root(name)) for name in self._parents}

    def _unite_block(self, block: str) -> None:
        """All names of a block share storage, since its variables overlap in a way that isn't looked at."""
        self._unite([
            (symbols.unit.path, name)
            for symbols in self._visible for name in symbols.declarations.blocks.get(block, [])
        ])

    def _unite(self, names: List[Tuple[str, str]]) -> None:
        for name in names:
            self._parents.setdefault(name, name)
            self._parents[self._root(name)] = self._root(names[0])

    def _root(self, name: Tuple[str, str]) -> Tuple[str, str]:
        while self._parents[name] != name:
            name = self._parents[name]
        return name
