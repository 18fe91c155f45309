"""What a loop of the user's reads and writes, and why it may get no model, before any of it is written."""

from __future__ import annotations

import re
from dataclasses import dataclass, field
from functools import cached_property
from typing import Dict, FrozenSet, Iterator, List, Optional, Set, Tuple

from . import intrinsics, tree
from .accesses import Access, Effects, Kind, reads_of
from .facts import Facts
from .indices import Refused
from .keywords import words_of
from .roles import Procedures, Roles
from .source import Mark
from .symbols import Storage, Symbol, Symbols
from .units import Block, File, Node, Unit, Written, depth_of, loops_of

_DEFINE = re.compile(r" *# *(define|undef)", re.IGNORECASE)
_END_DIRECTIVE = re.compile(r" *[!cC*]\$(omp|acc) *end", re.IGNORECASE)
#: Statements in lines with `!$` that change nothing for other statements, in capitals, and names before parentheses.
_HARMLESS = tuple(re.compile(pattern) for pattern in [
    r"USE *(, *INTRINSIC *:: *)?OMP_LIB( *, *ONLY *:.*)?", r"CALL +OMP_\w+ *(\(.*\))?", r"[A-Z]\w* *=[^=>].*",
    r"PRINT *\* *,.*",
])
_DECLARING = re.compile(r"(INTEGER|REAL|LOGICAL|DOUBLE PRECISION)( *:: *| )[\w, ]+")
_TYPES = frozenset(["INTEGER", "REAL", "LOGICAL", "DOUBLE", "PRECISION"])
_CONSTANT = re.compile("'[^']*'|\"[^\"]*\"")
_CALLED = re.compile(r"([A-Z]\w*) *\(")
#: The kinds of statements that may call a procedure and do no input or output, by their first words.
_CALLING = frozenset(["CALL", "=", "IF", "IF THEN", "ELSE IF", "DO", "SELECT CASE", "WHERE"])
_GLOBAL = frozenset([Storage.COMMON, Storage.HOST, Storage.MODULE])


@dataclass(eq=False)
class Scene:
    """A unit with all that is known of it. Without `procedures` nobody looks into what it calls."""

    file: File
    unit: Unit
    symbols: Symbols
    procedures: Optional[Procedures] = None

    @cached_property
    def roles(self) -> Roles:
        """What its names are."""
        return Roles(self.symbols, self.procedures)

    @cached_property
    def facts(self) -> Facts:
        """What its statements do, and where its run goes on."""
        return Facts(self.unit, self.roles)

    @cached_property
    def depth(self) -> int:
        """How many DOs there are in one another."""
        return depth_of(self.unit.body)

    @cached_property
    def nesting(self) -> int:
        """How many DOs, IFs and other blocks there are in one another."""
        return depth_of(self.unit.body, of_all=True)

    @cached_property
    def has_unreadable(self) -> bool:
        """Whether there is a statement that can't be read."""
        return any(isinstance(written.statement, tree.Unreadable) for written in self.unit.statements())


@dataclass
class Survey:
    """What a loop reads and writes. `bound` are the variables of FORALL and DO CONCURRENT around a statement.

    `joined` are structures whose components aren't looked at one by one.
    """

    loop: Block
    joined: FrozenSet[str] = frozenset()
    statements: List[Written] = field(default_factory=list)
    effects: Dict[int, Effects] = field(default_factory=dict)
    bound: Dict[int, FrozenSet[str]] = field(default_factory=dict)

    @cached_property
    def written(self) -> FrozenSet[str]:
        """All names that the loop assigns, its DO variables among them."""
        return frozenset(access.name for _, access in self.accesses() if access.writes)

    @cached_property
    def split(self) -> FrozenSet[str]:
        """The structures of which each access is one of a component, so that each component is a variable of its own."""
        whole = {access.name for _, access in self.accesses() if not access.part}
        return frozenset(access.name for _, access in self.accesses()) - whole - self.joined

    def place(self, access: Access) -> str:
        """The variable of an access, or the component of it as a variable of its own."""
        return access.place if access.name in self.split else access.name

    def indices(self, access: Access) -> Optional[Tuple[tree.Expression, ...]]:
        """The subscripts of that variable; none where they aren't written."""
        return access.indices if access.name in self.split else access.subscripts

    @cached_property
    def changed(self) -> FrozenSet[str]:
        """All variables that the loop assigns, and components that are variables of their own."""
        return frozenset(self.place(access) for _, access in self.accesses() if access.writes)

    @cached_property
    def occurring(self) -> FrozenSet[str]:
        """All variables in the loop."""
        return frozenset(access.name for _, access in self.accesses())

    @cached_property
    def reached(self) -> FrozenSet[str]:
        """The variables that procedures use under names of their own, so that they know nothing of a thread's copy."""
        return frozenset(access.name for _, access in self.accesses() if access.shared is not None)

    @cached_property
    def inner_variables(self) -> FrozenSet[str]:
        """The DO variables of the loops in this one."""
        return frozenset(filter(None, map(variable_of, loops_of(self.loop.body))))

    def accesses(self) -> Iterator[Tuple[Written, Access]]:
        """All reads and writes, in order of text."""
        for written in self.statements:
            for access in self.effects[written.number].accesses:
                yield written, access


def control_of(loop: Block) -> object:
    """The control of a DO, none where it has none."""
    statement = loop.head.statement
    return statement.control if isinstance(statement, tree.Do) else None


def variable_of(loop: Block) -> str:
    """The variable of a DO; empty for DO WHILE and the like."""
    control = control_of(loop)
    return tree.root_of(control.variable) if isinstance(control, tree.Counted) else ""


def counting(loop: Block) -> Optional[tree.Counted]:
    """How a DO counts; a DO CONCURRENT over one range does as a DO over it would. None for others."""
    control = control_of(loop)
    if isinstance(control, tree.Concurrent) and len(control.ranges) == 1 and not control.has_type:
        one = control.ranges[0]
        return tree.Counted(tree.Name(one.variable), one.first, one.last, one.step)
    return control if isinstance(control, tree.Counted) else None


def own_variable(loop: Block) -> str:
    """The variable of a DO CONCURRENT over one range, which is its own and none of the unit's; empty for others."""
    control = counting(loop) if isinstance(control_of(loop), tree.Concurrent) else None
    return "" if control is None else tree.root_of(control.variable)


def surveyed(scene: Scene, loop: Block) -> Survey:
    """What a loop reads and writes; raises `Refused` where that isn't known."""
    _check_unit(scene, loop)
    _check_header(loop)
    found = Survey(loop)
    for written in loop.statements():
        found.statements.append(written)
        found.effects[written.number] = scene.facts.effects(written)
        found.bound[written.number] = scene.facts.graph.bound.get(written.number, frozenset())
    for written in found.statements:
        for trouble in found.effects[written.number].troubles:
            raise Refused(trouble.reason, written.item.first, trouble.words)
    symbols = [scene.symbols.get(name) for name in found.occurring]
    found.joined = frozenset(symbol.name for symbol in symbols if symbol.group or symbol.storage is Storage.COMMON)
    _check_variables(scene, found)
    _check_procedures(scene, found)
    _check_storage(scene, found)
    _check_words(scene, found)
    for fault in scene.facts.body(loop).faults:
        raise Refused(fault.reason, fault.line, fault.words)
    return found


# --- Why a loop gets no model ----------------------------------------------------------------------------------------


def _check_unit(scene: Scene, loop: Block) -> None:
    """The declarations of the unit, and lines that are no statements."""
    for fault in scene.symbols.faults:
        raise Refused(fault.reason, fault.line, fault.words)
    if loop.end is None:
        raise Refused("parse", loop.head.item.first, "the end of the loop isn't there")
    if scene.symbols.block_round(loop.head) is not None:
        raise Refused("associate", loop.head.item.first, "a construct around the loop has names of its own")
    for mark in scene.file.marks:
        _check_mark(scene, loop, mark)


def _check_mark(scene: Scene, loop: Block, mark: Mark) -> None:
    unit = scene.unit
    words = mark.text.strip()
    is_here = mark.file in unit.files if mark.file else mark.first <= unit.last_line and mark.last >= unit.first_line
    if mark.kind == "preprocessor":
        if is_here or _DEFINE.match(mark.text) and (mark.file or mark.first <= loop.last_line):
            raise Refused("preprocessor", mark.first, mark.words)
    elif mark.kind == "include":
        if is_here:
            raise Refused("include", mark.first, words)
    elif is_here:
        is_inside = mark.first <= loop.last_line and mark.last >= loop.first_line
        # Lines of different files can't be compared.
        is_apart = mark.file or loop.head.item.file
        if is_apart or is_inside or _is_round(scene, loop, mark):
            raise Refused("directive", mark.first, words)


def _check_words(scene: Scene, found: Survey) -> None:
    """Lines that only a compiler with -fopenmp reads, outside the loop, and directives that give threads copies.

    Those of hosts and of modules count as well: they may declare what the loop's names are. No variable of the loop may
    occur there, since its value may be needed there, or clauses may not name it. Nor may such a line declare anything,
    or change which statements are carried out.
    """
    names = set(found.occurring) | {scene.symbols.get(name).block.strip("/") for name in found.occurring}
    for mark in scene.file.marks:
        words = words_of(mark.text[mark.text.find("$") + 1:])
        is_here = bool(mark.file) or any(_has_mark(scene, unit, mark) for unit in scene.symbols.seen_units())
        is_statement = mark.kind == "conditional" and is_here
        if is_statement or mark.kind == "directive" and "THREADPRIVATE" in words:
            common = sorted(words & (names - {""}))
            if common or is_statement and not _is_harmless(scene, mark.text):
                raise Refused("directive", mark.first, mark.text.strip())


def _has_mark(scene: Scene, unit: Unit, mark: Mark) -> bool:
    """Whether a line is in the unit of a loop, or in a host or a module of it but in no procedure contained there."""
    is_in = mark.first <= unit.last_line and mark.last >= unit.first_line
    is_apart = unit is not scene.unit and any(
        mark.first <= one.last_line and mark.last >= one.first_line for one in unit.contained
    )
    return is_in and not is_apart


def _is_harmless(scene: Scene, line: str) -> bool:
    """Whether a line with `!$` is a whole statement that declares nothing of the unit's, and leads nowhere else.

    It is USE OMP_LIB, a call of that module's, an assignment or a PRINT without any other function, or the declaration
    of names that have no other property and that the unit hasn't otherwise.
    """
    if scene.file.form == "fixed" and line[5:6] not in ("", " ", "0"):
        return False
    text = _CONSTANT.sub("0", line[line.find("$") + 1:]).partition("!")[0].upper().strip()
    if not text:
        return True
    if text[0] == "&" or text[-1] == "&" or text[0].isdigit() or set(text) & set(";'\""):
        return False
    if any(not match.group(1).startswith("OMP_") for match in _CALLED.finditer(text)):
        return False
    if _DECLARING.fullmatch(text):
        own = [one for unit in scene.symbols.seen_units() for one in unit.statements()]
        return not any((words_of(text) - _TYPES) & one.names for one in own)
    return any(pattern.fullmatch(text) for pattern in _HARMLESS)


def _is_round(scene: Scene, loop: Block, mark: Mark) -> bool:
    """Whether a directive may be about a loop: it is on a DO around it, or begins a region that may hold the loop."""
    rounds = [one for one in loops_of(scene.unit.body) if any(written is loop.head for written in one.statements())]
    lines = scene.file.lines
    for one in rounds:
        number = one.first_line - 1
        while number > mark.last and _is_comment(lines[number - 1]):
            number -= 1
        is_before = mark.kind == "directive" and number <= mark.last < one.first_line
        if is_before or one.first_line <= mark.first <= loop.first_line:
            return True
    if mark.first > loop.last_line or mark.kind == "conditional":
        return False
    return any(
        other.kind == "directive" and other.first > loop.last_line and other.first <= scene.unit.last_line
        and _END_DIRECTIVE.match(other.text) for other in scene.file.marks
    )


def _is_comment(line: str) -> bool:
    return not line.strip() or line[0] in "cC*!" or line.strip().startswith("!")


def _check_header(loop: Block) -> None:
    control = control_of(loop)
    line = loop.head.item.first
    if isinstance(loop.head.statement, tree.Unreadable):
        raise Refused(loop.head.statement.reason, line, loop.head.statement.words)
    if isinstance(control, tree.Concurrent) and counting(loop) is None:
        words = "a type in its header" if control.has_type else f"{len(control.ranges)} ranges"
        raise Refused("concurrent", line, f"DO CONCURRENT with {words} is taken for the user's promise alone")
    if counting(loop) is None:
        raise Refused("while", line, "nothing counts the iterations")


def _check_variables(scene: Scene, found: Survey) -> None:
    """DO variables have to be INTEGER scalars that their bodies don't assign."""
    for loop in [found.loop, *loops_of(found.loop.body)]:
        control = counting(loop) if loop is found.loop else control_of(loop)
        if not isinstance(control, tree.Counted):
            continue
        line = loop.head.item.first
        name = tree.root_of(control.variable)
        symbol = scene.symbols.get(name)
        if not isinstance(control.variable, tree.Name) or scene.roles.kind_of(name) is not Kind.SCALAR:
            raise Refused("index", line, f"{control.variable} is no scalar")
        if symbol.type != "INTEGER":
            raise Refused("index", line, f"{name} isn't INTEGER")
        if symbol.is_pointer:
            raise Refused("pointer", line, f"{name} may be reached by pointers")
        for node in loop.body:
            _check_body(found, node, name)


def _check_body(found: Survey, node: Node, name: str) -> None:
    statements = [node] if isinstance(node, Written) else list(node.statements())
    for written in statements:
        known = found.effects.get(written.number)
        # A procedure that may change it, on some condition, doesn't: A4.
        writes = () if known is None else (access for access in known.writes if access.covers or not access.by_call)
        if any(access.name == name for access in writes):
            raise Refused("index", written.item.first, f"{name} counts a DO, and is assigned in it")


def _check_procedures(scene: Scene, found: Survey) -> None:
    """What procedures do that are called: they may use no DO variable, and functions may write in assignments alone."""
    for written, access in found.accesses():
        if access.shared is not None and access.name in found.inner_variables | {variable_of(found.loop)}:
            words = f"a procedure that is called uses {access.name} itself, which counts a DO"
            raise Refused("call", written.item.first, words)
    for written in found.statements:
        side_writes = _misplaced_writes(scene, found, written)
        if side_writes:
            words = f"a function may assign {side_writes[0].name}, and isn't in an assignment"
            raise Refused("function", written.item.first, words)
        if found.effects[written.number].reads_shared:
            shared = sorted(name for name in found.written if scene.symbols.get(name).is_reached_by_calls)
            if shared:
                words = f"a procedure whose body isn't in the files may read {shared[0]}, which the loop assigns"
                raise Refused("call", written.item.first, words)


def _misplaced_writes(scene: Scene, found: Survey, written: Written) -> Tuple[Access, ...]:
    """What functions may write in a condition, a header or the like."""
    statement = written.statement
    if isinstance(statement, (tree.Assignment, tree.Call)):
        return ()
    if isinstance(statement, tree.LogicalIf) and isinstance(statement.action, (tree.Assignment, tree.Call)):
        return reads_of(statement.condition, scene.roles, found.bound[written.number]).side_writes
    return found.effects[written.number].side_writes


def _check_storage(scene: Scene, found: Survey) -> None:
    """Names that may share their storage, of which one is written."""
    symbols = {name: scene.symbols.get(name) for name in sorted(found.occurring)}
    line = found.loop.head.item.first
    for name, symbol in symbols.items():
        if "VOLATILE" in symbol.attributes:
            raise Refused("volatile", line, f"{name} is VOLATILE")
        if "CODIMENSION" in symbol.attributes:
            raise Refused("coarray", line, f"{name} is a coarray")
        if "CRAY POINTEE" in symbol.attributes:
            raise Refused("pointer", line, f"{name} is the pointee of a Cray pointer")
    _check_groups(scene, found, symbols)
    pointers = [name for name, symbol in symbols.items() if symbol.is_pointer]
    written = [name for name in pointers if name in found.written]
    if len(pointers) > 1 and written:
        other = next(name for name in pointers if name != written[0])
        raise Refused("pointer", line, f"{written[0]} and {other} may share storage, being POINTER or TARGET")


def _check_groups(scene: Scene, found: Survey, symbols: Dict[str, Symbol]) -> None:
    groups: Dict[str, List[str]] = {}
    for name, symbol in symbols.items():
        if symbol.group:
            groups.setdefault(symbol.group, []).append(name)
    for names in groups.values():
        if len(names) > 1 and found.written.intersection(names):
            first, second = names[:2]
            line = _equivalence_line(scene, first, second) or found.loop.head.item.first
            raise Refused("equivalence", line, f"{first} and {second} share storage")


def _equivalence_line(scene: Scene, first: str, second: str) -> Optional[int]:
    """The line of the EQUIVALENCE of two names of the unit."""
    for declared in scene.unit.specification:
        if isinstance(declared, Written) and isinstance(declared.statement, tree.Equivalence):
            for group in declared.statement.groups:
                if {first, second} <= {tree.root_of(one) for one in group}:
                    return declared.item.first
    return None


# --- Assumptions -----------------------------------------------------------------------------------------------------


def assumptions_of(scene: Scene, found: Survey) -> FrozenSet[str]:
    """The assumptions that a verdict about a loop rests on by what occurs in it."""
    assumed: Set[str] = {"A3", "A12"}
    symbols = [scene.symbols.get(name) for name in sorted(found.occurring)]
    if any(symbol.rank >= 2 for symbol in symbols) or _has_neighbours(found, symbols) or _has_arrays(scene, found):
        assumed.add("A2")
    if _has_strangers(found, symbols):
        assumed.add("A1")
    if scene.file.included or scene.symbols.uses_modules or scene.has_unreadable:
        assumed.add("A5")
    if any("A5" in scene.facts.effects(one).assumes for one in scene.unit.statements() if one.word in _CALLING):
        # What is needed after the loop rests on what is called there.
        assumed.add("A5")
    if _changes_counters(found):
        assumed.add("A4")
    expressions = (expression for one in found.statements for expression in one.statement.expressions())
    if scene.symbols.missing_modules or any(has_intrinsic(scene.roles, expression) for expression in expressions):
        assumed.add("A6")
    return frozenset(assumed).union(*(effects.assumes for effects in found.effects.values()))


def _changes_counters(found: Survey) -> bool:
    """Whether a procedure may change a DO variable that it's given."""
    return any(
        access.name == variable_of(loop)
        for loop in (found.loop, *loops_of(found.loop.body)) for node in loop.body
        for written in ([node] if isinstance(node, Written) else node.statements())
        for access in found.effects[written.number].side_writes
    )


def _has_strangers(found: Survey, symbols: List[Symbol]) -> bool:
    """Whether there are two dummies, or a dummy and a global, one of them written."""
    strangers = [one for one in symbols if one.storage is Storage.DUMMY or one.storage in _GLOBAL]
    dummies = [one for one in strangers if one.storage is Storage.DUMMY]
    return bool(dummies) and len(strangers) > 1 and any(one.name in found.written for one in strangers)


def _has_neighbours(found: Survey, symbols: List[Symbol]) -> bool:
    """Whether an array is in one common block with another variable, one of them written."""
    blocks: Dict[str, List[Symbol]] = {}
    for symbol in symbols:
        if symbol.block:
            blocks.setdefault(symbol.block, []).append(symbol)
    return any(
        len(members) > 1 and any(one.rank for one in members) and any(one.name in found.written for one in members)
        for members in blocks.values()
    )


def _has_arrays(scene: Scene, found: Survey) -> bool:
    """Whether a structure has an array among its components that counts for itself."""
    return any(
        access.name in found.split and len(access.part_subscripts) > scene.symbols.get(access.name).rank
        for _, access in found.accesses()
    )


def has_intrinsic(roles: Roles, expression: tree.Expression) -> bool:
    """Whether an expression has an intrinsic function."""
    if isinstance(expression, tree.Reference) and isinstance(expression.base, tree.Name):
        name = expression.base.name
        if name in intrinsics.PURE and roles.is_intrinsic(name):
            return True
    return any(has_intrinsic(roles, part) for part in expression.parts())
