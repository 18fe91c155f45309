"""What the declarations of one unit say of its names, before anything is looked up in other units."""

from __future__ import annotations

from dataclasses import dataclass, field
from typing import Callable, Dict, FrozenSet, Iterator, List, Mapping, Optional, Set, Tuple, Type

from . import tree, units
from .keywords import DECLARATIONS

#: The attributes that don't make a name the unit's own: it may be one of the host, or of a module.
_FOREIGN = frozenset(["VOLATILE", "ASYNCHRONOUS", "PUBLIC", "PRIVATE", "BIND", "PROTECTED"])


@dataclass
class Facts:
    """What the declarations of a unit say of one name.

    `is_own` is true where they make the name one of this unit, whatever hosts and modules have. `type` is none where
    only IMPLICIT says it. `value` is the expression of a PARAMETER. `block` is the common block, `/NAME/`.
    """

    is_own: bool = False
    type: Optional[tree.TypeSpec] = None
    bytes: Optional[int] = None
    bounds: Tuple[tree.Bound, ...] = ()
    attributes: Set[str] = field(default_factory=set)
    value: Optional[tree.Expression] = None
    block: str = ""


#: A type for each letter.
Letters = Dict[str, tree.TypeSpec]


@dataclass
class Declarations:
    """The declarations of a unit.

    `letters` are those of IMPLICIT; `has_implicit_none` is true for IMPLICIT NONE. `equivalences` are the names of each
    group. `blocks` are the names of each common block. `namelists` are the variables of each group. `enumerators` are
    the names of each ENUM in order, with their values.
    """

    names: Dict[str, Facts] = field(default_factory=dict)
    letters: Letters = field(default_factory=dict)
    has_implicit_none: bool = False
    equivalences: List[FrozenSet[str]] = field(default_factory=list)
    blocks: Dict[str, List[str]] = field(default_factory=dict)
    namelists: Dict[str, Tuple[str, ...]] = field(default_factory=dict)
    enumerators: Dict[str, Tuple[Optional[tree.Expression], str]] = field(default_factory=dict)
    uses: List[tree.Use] = field(default_factory=list)
    types: Dict[str, units.TypeDefinition] = field(default_factory=dict)
    saves_all: bool = False
    saved_blocks: Set[str] = field(default_factory=set)
    is_private: bool = False
    faults: List[units.Fault] = field(default_factory=list)

    def facts(self, name: str) -> Facts:
        """What is said of a name, to be added to."""
        return self.names.setdefault(name, Facts())


def read_declarations(unit: units.Unit, interface: Optional[units.Unit] = None) -> Declarations:
    """The declarations of a unit; for MODULE PROCEDURE in a submodule with those of its interface."""
    reader = _Reader(unit)
    for one in (unit,) if interface is None else (interface, unit):
        reader.take_head(one)
        for declared in one.specification:
            reader.take(declared)
    for written in late_declarations(unit.body):
        reader.take(written)
    return reader.finish()


def late_declarations(nodes: Tuple[units.Node, ...]) -> Iterator[units.Written]:
    """The declarations among the executable statements; those of a BLOCK, which has names of its own, aren't given."""
    for node in nodes:
        if isinstance(node, units.Written):
            if node.word in DECLARATIONS:
                yield node
        elif node.kind != "BLOCK":
            yield from late_declarations(node.lead)
            for branch in node.branches:
                yield from late_declarations(branch.body)


class _Reader:
    """Takes the declarations of a unit one after the other."""

    def __init__(self, unit: units.Unit) -> None:
        self._unit = unit
        self._found = Declarations()
        #: The last ENUMERATOR, from whose value one without a value goes on.
        self._enumerator = ""

    def finish(self) -> Declarations:
        """All that was found."""
        found = self._found
        for name, facts in found.names.items():
            if facts.block in found.saved_blocks:
                facts.attributes.add("SAVE")
        return found

    def take(self, declared: units.Declared) -> None:
        """Takes a part of the specification."""
        if isinstance(declared, units.TypeDefinition):
            self._take_type(declared)
        elif isinstance(declared, units.InterfaceBlock):
            self._take_interface(declared)
        elif declared.word != "FORMAT":
            statement = declared.statement
            take = _TAKERS.get(type(statement))
            if take is not None:
                take(self, statement)
            fault = _fault(declared)
            if fault is not None:
                self._found.faults.append(fault)

    def _own(self, name: str, *attributes: str) -> Facts:
        facts = self._found.facts(name)
        facts.is_own = True
        facts.attributes.update(attributes)
        return facts

    def take_head(self, unit: units.Unit) -> None:
        """Takes the names of contained procedures, and those of the unit's first statement."""
        for contained in unit.contained:
            if contained.name:
                self._own(contained.name, "PROCEDURE")
        head = unit.head.statement if unit.head is not None else None
        if not isinstance(head, tree.Head):
            return
        for argument in head.arguments:
            if argument != "*":
                self._own(argument, "DUMMY")
        if head.kind == "FUNCTION":
            self._take_result(head.name, head.result, head.type)
        elif head.name:
            self._own(head.name, "PROCEDURE")

    def _take_result(self, name: str, result: str, type_: Optional[tree.TypeSpec]) -> None:
        facts = self._own(result or name, "RESULT")
        facts.type = facts.type if type_ is None else type_
        if result and result != name:
            self._own(name, "PROCEDURE")

    def take_entry(self, statement: tree.Entry) -> None:
        for argument in statement.arguments:
            if argument != "*":
                self._own(argument, "DUMMY")
        if self._unit.kind == "FUNCTION":
            self._take_result(statement.name, statement.result, None)
        else:
            self._own(statement.name, "PROCEDURE")

    def _take_type(self, definition: units.TypeDefinition) -> None:
        head = definition.head.statement
        if isinstance(head, tree.DerivedType):
            self._found.types[head.name] = definition
            self._own(head.name, "TYPE", *(head.attributes & _FOREIGN))
        else:
            self._found.faults.append(_unreadable(definition.head))

    def _take_interface(self, interface: units.InterfaceBlock) -> None:
        head = interface.head.statement
        if not isinstance(head, tree.Interface):
            self._found.faults.append(_unreadable(interface.head))
            return
        if head.generic and "(" not in head.generic:
            self._own(head.generic, "PROCEDURE", "GENERIC")
        for body in interface.bodies:
            if not head.abstract and body.name:
                self._own(body.name, "PROCEDURE")

    def take_types(self, statement: tree.TypeDeclaration) -> None:
        for entity in statement.entities:
            facts = self._own(entity.name, *statement.attributes)
            facts.type = statement.type
            length = entity.length.value if isinstance(entity.length, tree.Literal) else None
            if statement.type.name != "CHARACTER":
                facts.bytes = length
            self._entity(entity, facts)
            if "PARAMETER" in statement.attributes:
                facts.value = entity.initial
            elif entity.initial is not None:
                facts.attributes.update(["SAVE", "INITIAL"])

    def take_attribute(self, statement: tree.AttributeDeclaration) -> None:
        if not statement.entities:
            self._found.saves_all |= statement.attribute == "SAVE"
            self._found.is_private |= statement.attribute == "PRIVATE"
        for entity in statement.entities:
            if entity.name.startswith("/"):
                if statement.attribute == "SAVE":
                    self._found.saved_blocks.add(entity.name)
                continue
            is_foreign = statement.attribute in _FOREIGN
            facts = self._found.facts(entity.name) if is_foreign else self._own(entity.name)
            if statement.attribute != "DIMENSION":
                facts.attributes.add(statement.attribute)
            self._entity(entity, facts)

    @staticmethod
    def _entity(entity: tree.Entity, facts: Facts) -> None:
        """Takes what is written after a name."""
        facts.bounds = entity.bounds or facts.bounds
        if entity.coarray:
            facts.attributes.add("CODIMENSION")

    def take_parameter(self, statement: tree.Parameter) -> None:
        for name, expression in statement.values:
            self._own(name, "PARAMETER").value = expression

    def take_common(self, statement: tree.Common) -> None:
        for block, entities in statement.blocks:
            key = f"/{block}/"
            for entity in entities:
                facts = self._own(entity.name)
                facts.block = key
                self._entity(entity, facts)
                self._found.blocks.setdefault(key, []).append(entity.name)

    def take_equivalence(self, statement: tree.Equivalence) -> None:
        for group in statement.groups:
            names = frozenset(tree.root_of(one) for one in group)
            for name in names - {""}:
                self._own(name)
            self._found.equivalences.append(names - {""})

    def take_implicit(self, statement: tree.Implicit) -> None:
        if statement.rules is None:
            self._found.has_implicit_none = True
        for spec, letters in statement.rules or ():
            self._found.letters.update({letter: spec for letter in letters})

    def take_use(self, statement: tree.Use) -> None:
        self._found.uses.append(statement)

    def take_cray(self, statement: tree.CrayPointers) -> None:
        for pointer, pointee in statement.pairs:
            self._own(pointer, "CRAY POINTER")
            self._entity(pointee, self._own(pointee.name, "CRAY POINTEE"))

    def take_data(self, statement: tree.Data) -> None:
        for name in statement.names:
            self._found.facts(name).attributes.update(["SAVE", "INITIAL"])

    def take_namelist(self, statement: tree.Namelist) -> None:
        for group, names in statement.groups:
            self._found.namelists[group] = self._found.namelists.get(group, ()) + names
            self._own(group, "GROUP")
            for name in names:
                self._found.facts(name).attributes.add("NAMELIST")

    def take_enumerators(self, statement: tree.Enumerator) -> None:
        for name, expression in statement.values:
            self._own(name, "PARAMETER", "ENUMERATOR").type = tree.TypeSpec("INTEGER")
            self._found.enumerators[name] = (expression, self._enumerator)
            self._enumerator = name

    def take_procedures(self, statement: tree.ProcedureDeclaration) -> None:
        for name in statement.names:
            self._own(name, "PROCEDURE", *statement.attributes)

    def take_word(self, statement: tree.Word) -> None:
        if statement.word == "ENUM":
            self._enumerator = ""


def _fault(written: units.Written) -> Optional[units.Fault]:
    """Why nothing is known of the names of a unit with this statement among its declarations; none for most."""
    statement = written.statement
    if isinstance(statement, tree.Include):
        return units.Fault("include", written.item.first, f"{written.item.text}: there is no such file")
    return _unreadable(written) if isinstance(statement, tree.Unreadable) else None


def _unreadable(written: units.Written) -> units.Fault:
    reason = written.statement.reason if isinstance(written.statement, tree.Unreadable) else "parse"
    return units.Fault(reason, written.item.first, f"{written.item.text.strip()}: this declaration can't be read")


_TAKERS: Mapping[Type[tree.Statement], Callable[..., None]] = {
    tree.TypeDeclaration: _Reader.take_types,
    tree.AttributeDeclaration: _Reader.take_attribute,
    tree.Parameter: _Reader.take_parameter,
    tree.Common: _Reader.take_common,
    tree.Equivalence: _Reader.take_equivalence,
    tree.Implicit: _Reader.take_implicit,
    tree.Use: _Reader.take_use,
    tree.CrayPointers: _Reader.take_cray,
    tree.Data: _Reader.take_data,
    tree.Namelist: _Reader.take_namelist,
    tree.Enumerator: _Reader.take_enumerators,
    tree.ProcedureDeclaration: _Reader.take_procedures,
    tree.Entry: _Reader.take_entry,
    tree.Word: _Reader.take_word,
}
