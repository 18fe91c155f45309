"""The body of a model: the statements of an iteration, with all that they read and write."""

from __future__ import annotations

from dataclasses import dataclass
from typing import Dict, FrozenSet, Iterable, List, Mapping, Optional, Sequence, Tuple

from . import tree
from .accesses import Access, Effects, Kind, effects, reads_of
from .conditions import Conditions
from .indices import Indices, Pieces, Refused, Site, as_operand, joined
from .naming import OPAQUE, Naming
from .recurrences import Induction, Reduction
from .shape import BUSY, JUMPS, Action, Choice, Maybe, Part, Single, Tested
from .survey import Scene, Survey
from .units import Block, Written
from .writer import Origin, Piece, Use, Writer, sum_of, sums

#: The first line of an IF of which nothing is known.
_OPEN = f"IF ({OPAQUE}.NE.0) THEN"
#: Statements that are carried out without reading or writing anything, or read what they choose by.
_READING = (
    tree.IfThen, tree.ElseIf, tree.SelectCase, tree.ComputedGoTo, tree.ArithmeticIf, tree.Where, tree.ElseWhere,
    tree.Forall,
)
#: The most DOs of the profile in one another.
MOST_LOOPS = 6
_PLAIN = (
    tree.GoTo, tree.Cycle, tree.Exit, tree.Continue, tree.End, tree.Else, tree.Case, tree.Format, tree.Data,
)


@dataclass(frozen=True)
class Count:
    """How a DO counts in the model: its header, what its variable is in its body, and the name that counts."""

    header: Pieces
    value: Pieces
    counter: str


class Plan:
    """What the body of a model is written by.

    `outside` are DO variables of inner loops that are read outside their DOs. `iteration` is the number of the loop's
    iteration, counted from 0, where there are induction variables. `downward` tells that inner DOs are counted from
    their last values, where that can be. `own` has the variable of a DO CONCURRENT, which is none of the unit's.
    """

    def __init__(
        self, scene: Scene, survey: Survey, indices: Indices, names: Naming, reductions: Sequence[Reduction],
        inductions: Sequence[Induction], outside: FrozenSet[str], downward: bool = False,
        own: FrozenSet[str] = frozenset(),
    ) -> None:
        self.scene = scene
        self.survey = survey
        self.indices = indices
        self.names = names
        self.gathered = frozenset(one.name for one in reductions)
        self.gathering = frozenset(number for one in reductions for number in one.numbers)
        self.inductions: Dict[int, Induction] = {one.number: one for one in inductions}
        self.outside = outside
        self.downward = downward
        self.own = own
        self.iteration = ""
        #: Whether a DO might be counted from its last value.
        self.may_turn = False

    @property
    def growing(self) -> FrozenSet[str]:
        """The induction variables."""
        return frozenset(one.name for one in self.inductions.values())

    # --- Headers -------------------------------------------------------------------------------------------------

    def count(self, control: tree.Counted, site: Site, normalised: bool, is_inner: bool = True) -> Count:
        """How a DO counts; from 0 by 1 where that is wanted, and where its first value isn't constant."""
        indices, constant = self.indices, self.scene.symbols.constant
        first, last = indices.certain(control.first, site), indices.certain(control.last, site)
        step = 1 if control.step is None else constant(control.step)
        if control.step is not None:
            indices.certain(control.step, site)
        if step == 0:
            raise Refused("index", site.line, "the step is 0")
        if step is None:
            return self._by_unknown_steps(tree.root_of(control.variable), normalised)
        turns = is_inner and last is not None and abs(step) == 1 and constant(control.last) is None
        turns = turns and self._is_fixed(control.last)
        self.may_turn |= turns
        if turns and self.downward:
            return self._from_zero(control, first, last, step, turns=True)
        is_open = constant(control.first) is None and first is not None and abs(step) == 1
        if normalised or is_open and self._is_fixed(control.first):
            return self._from_zero(control, first, last, step)
        name = self.names.name(tree.root_of(control.variable))
        bounds = [indices.opaque if bound is None else bound for bound in (first, last)]
        steps: List[Pieces] = [] if step == 1 else [(str(step),)]
        return Count((f"DO {name} = ", *joined([*bounds, *steps], ", ")), (name,), name)

    def _is_fixed(self, bound: tree.Expression) -> bool:
        """Whether a bound has no scalar that the loop assigns, but for the DO variables around it."""
        names = set(tree.names_in(bound)) - set(self.indices.counters) - self.survey.split
        if names & self.survey.written:
            return False
        reads = reads_of(bound, self.scene.roles).accesses
        return not any(self.survey.place(one) in self.survey.changed for one in reads if one.name in self.survey.split)

    def _by_unknown_steps(self, variable: str, normalised: bool) -> Count:
        """All whole numbers between two unknown ones, in place of those that are unknown steps apart."""
        if normalised:
            counter = self.names.fresh(variable)
            return Count((f"DO {counter} = 0, {OPAQUE}",), self.indices.opaque, counter)
        name, first, last = self.names.name(variable), self.names.fresh(), self.names.fresh()
        return Count((f"DO {name} = {first}, {last}",), (name,), name)

    def _from_zero(
        self, control: tree.Counted, first: Optional[Pieces], last: Optional[Pieces], step: int, turns: bool = False
    ) -> Count:
        """Iterations counted from 0. The variable is its first value and so many steps, or its last one less them."""
        counter = self.names.fresh(tree.root_of(control.variable))
        limit: Pieces = (self.names.fresh(),)
        if first is not None and last is not None and abs(step) == 1:
            above, below = (last, first) if step == 1 else (first, last)
            limit = self._number(control, step) or (*above, "-", *as_operand(below))
        if turns and last is not None:
            start, sign = last, -step
        else:
            start, sign = self.indices.opaque if first is None else first, step
        times = f"+{counter}" if sign == 1 else f"-{counter}" if sign == -1 else f"{sign:+}*{counter}"
        return Count((f"DO {counter} = 0, ", *limit), ("(", *start, times, ")"), counter)

    def section(self, name: str, position: int, section: tree.Expression, site: Site) -> Optional[Count]:
        """How a section counts, none where its first value isn't certain."""
        assert isinstance(section, tree.Section)
        indices, constant = self.indices, self.scene.symbols.constant
        step = 1 if section.step is None else constant(section.step)
        first: Optional[Pieces] = None
        if section.first is not None:
            first = indices.certain(section.first, site)
        else:
            lower = indices.extent(name, position)[0]
            first = None if lower is None or lower < 0 else (str(lower),)
        if first is None or not step or section.first is None and step != 1:
            return None
        counter = self.names.fresh()
        last = None if section.last is None else indices.certain(section.last, site)
        limit: Pieces = (self.names.fresh(),)
        if last is not None and step == 1:
            limit = (*last, "-", *as_operand(first))
        times = f"+{counter}" if step == 1 else f"{step:+}*{counter}"
        return Count((f"DO {counter} = 0, ", *limit), (*first, times), counter)

    def _number(self, control: tree.Counted, step: int) -> Optional[Pieces]:
        """The number of iterations less 1, where it's constant."""
        first, last = (self.scene.symbols.constant(one) for one in (control.first, control.last))
        if first is None or last is None:
            return None
        count = (last - first) * step
        return (str(count),) if 0 <= count < 2**31 else None


class BodyWriter:
    """Writes the body of a model."""

    def __init__(self, plan: Plan) -> None:
        self._plan = plan
        self._scene = plan.scene
        self._indices = plan.indices
        self._survey = plan.survey
        self.writer = Writer()
        self._conditions = Conditions(
            plan.scene.roles, plan.scene.symbols.constant, plan.survey.effects,
            plan.gathering | frozenset(plan.inductions),
        )
        #: How many DOs are open in the model.
        self._loops = 1

    @property
    def ranks(self) -> Dict[str, int]:
        """The number of dimensions of each array, by its name in the model."""
        return self._indices.ranks

    def masked(self, loop: Block, parts: Sequence[Part]) -> None:
        """Writes the parts of an iteration of the loop itself; a DO CONCURRENT may have a mask."""
        statement = loop.head.statement
        control = statement.control if isinstance(statement, tree.Do) else None
        if not isinstance(control, tree.Concurrent) or control.mask is None:
            self.parts(parts)
            return
        found = reads_of(control.mask, self._scene.roles, frozenset(one.variable for one in control.ranges))
        self._test(found.reads, loop.head)
        self.parts(parts)
        self.writer.end("END IF")

    def parts(self, parts: Sequence[Part]) -> None:
        """Writes the parts of an iteration."""
        for part in self._conditions.joined(parts):
            if isinstance(part, Single):
                if isinstance(part.node, Block):
                    self._block(part.node)
                else:
                    self._statement(part.node)
            elif isinstance(part, Choice):
                self._choice(part)
            elif isinstance(part, Tested):
                self._read(self._condition(part.head).reads, part.head)
            elif isinstance(part, Action):
                self._action(part.head)
            else:
                assert isinstance(part, Maybe)
                self.writer.begin(_OPEN)
                self.parts(part.parts)
                self.writer.end("END IF")

    # --- Statements ----------------------------------------------------------------------------------------------

    def _statement(self, written: Written) -> None:
        statement = written.statement
        found = self._survey.effects[written.number]
        if written.number in self._plan.gathering:
            self._read(found.reads, written)
        elif written.number in self._plan.inductions:
            self._read(found.reads, written)
            self.grow(self._plan.inductions[written.number], 1)
        elif isinstance(statement, tree.LogicalIf):
            self._logical_if(written, statement)
        else:
            self._simple(statement, found, written)

    def grow(self, induction: Induction, iterations: int) -> None:
        """Has an induction variable be what it is before, or after, its assignment of an iteration."""
        step = self._scene.symbols.constant(induction.step)
        counter = f"({self._plan.iteration}+{iterations})" if iterations else self._plan.iteration
        if step is None:
            self._indices.strides[induction.name] = (counter,)
        else:
            sign = "-" if induction.falls != (step < 0) else "+"
            first = self._plan.names.name(f"{induction.name} at first")
            self._indices.counters[induction.name] = (f"({first}{sign}{abs(step)}*{counter})",)

    def _logical_if(self, written: Written, statement: tree.LogicalIf) -> None:
        """A logical IF with an action; where the action is a jump, the shape says what is left out."""
        condition = self._condition(written)
        if isinstance(statement.action, JUMPS):
            self._read(condition.reads, written)
            return
        self._test(condition.reads, written)
        self._action(written)
        self.writer.end("END IF")

    def _action(self, written: Written) -> None:
        """The action of a logical IF."""
        statement = written.statement
        assert isinstance(statement, tree.LogicalIf)
        action = effects(statement.action, self._scene.roles, self._survey.bound[written.number])
        self._simple(statement.action, action, written)

    def _condition(self, written: Written) -> Effects:
        """What the condition of an IF reads."""
        statement = written.statement
        if not isinstance(statement, tree.LogicalIf):
            return self._survey.effects[written.number]
        return self._effects(statement.condition, written)

    def _simple(self, statement: tree.Statement, found: Effects, written: Written) -> None:
        line = written.item.first
        for trouble in found.troubles:
            raise Refused(trouble.reason, line, trouble.words)
        if isinstance(statement, (tree.Call, tree.InputOutput)):
            self._in_order(found.accesses, written)
        elif isinstance(statement, tree.Assignment) and len(found.writes) == 1:
            self._assign(found.writes[0], self._terms(found.reads, written), written)
        elif isinstance(statement, tree.Assignment) and found.writes:
            # What its functions write may be any part of it, at any time before the assignment. That of a structure
            # assigns all its components.
            self._read(found.reads, written)
            self._write_maybe(found.side_writes, written)
            for access in found.writes:
                if not access.by_call:
                    self._assign(access, [], written)
        elif isinstance(statement, _READING):
            self._read(found.reads, written)
            self._write_maybe(found.writes, written)
        elif found.accesses or not isinstance(statement, _PLAIN):
            raise Refused("parse", line, f"{type(statement).__name__} has no model here")

    def _in_order(self, accesses: Sequence[Access], written: Written) -> None:
        """Reads and writes one after the other: as a CALL carries them out, and READ or WRITE of an internal unit.

        There an item may be an index of the next.
        """
        reads: List[Access] = []
        for access in accesses:
            if not access.writes:
                reads.append(access)
                continue
            self._read(reads, written)
            reads = []
            if access.covers:
                self._assign(access, [], written)
            else:
                self._write_maybe([access], written)
        self._read(reads, written)

    def _write_maybe(self, writes: Sequence[Access], written: Written) -> None:
        """Writes that may be left out. No procedure writes a DO variable: A4."""
        writes = [access for access in writes if not access.by_call or access.name not in self._indices.counters]
        if writes:
            self.writer.begin(_OPEN)
            for access in writes:
                self._assign(access, [], written)
            self.writer.end("END IF")

    def _assign(self, access: Access, terms: Sequence[Piece], written: Written) -> None:
        """An assignment; a section is assigned element by element."""
        headers, target = self._with_sections(access, written)
        for header in headers:
            self.writer.begin(*header)
        self.writer.assign(target, terms)
        for _ in headers:
            self.writer.end("END DO")

    def _choice(self, choice: Choice) -> None:
        head = choice.head
        if head is None:
            self.writer.begin(_OPEN)
        elif _chooses_alone(head.statement):
            self._test(self._condition(head).reads, head)
        else:
            self._statement(head)
            self.writer.begin(_OPEN)
        last = len(choice.branches) - 1
        for index, branch in enumerate(choice.branches):
            if 0 < index < last:
                self.writer.turn(f"ELSE {_OPEN}")
            elif index == last and branch:
                self.writer.turn("ELSE")
            self.parts(branch)
        self.writer.end("END IF")

    # --- Blocks --------------------------------------------------------------------------------------------------

    def _block(self, block: Block) -> None:
        if block.kind != "DO":
            for written in block.statements():
                if written is not block.end:
                    self._simple(written.statement, self._survey.effects[written.number], written)
            return
        control = block.head.statement.control if isinstance(block.head.statement, tree.Do) else None
        if isinstance(control, tree.Counted):
            self._counted(block, control)
        else:
            self._uncounted(block, control)

    def _counted(self, block: Block, control: tree.Counted) -> None:
        head = block.head
        name = tree.root_of(control.variable)
        found = self._survey.effects[head.number]
        self._read([one for one in found.reads if self._survey.place(one) in self._survey.changed], head)
        is_outside = name in self._plan.outside
        count = self._plan.count(control, self._site(head), normalised=is_outside)
        if is_outside:
            self.writer.statement(self._designator(found.writes[-1], head), f" = {OPAQUE}")
        self.writer.begin(*count.header)
        constant = self._scene.symbols.constant
        self._indices.enter(name, count.value, constant(control.first), constant(control.last))
        self._loops += 1
        self._inside(block)
        self._loops -= 1
        self._indices.leave(name)
        self.writer.end("END DO")

    def _inside(self, block: Block) -> None:
        self.parts(self._scene.facts.inner_shape(block))

    def _uncounted(self, block: Block, control: object) -> None:
        """DO WHILE, DO CONCURRENT, and a DO that a jump leaves: any number of iterations, and parts of them."""
        reads = self._survey.effects[block.head.number].reads
        self._read(reads, block.head)
        self.writer.begin(f"DO {self._plan.names.fresh()} = 1, {OPAQUE}")
        self._loops += 1
        if not isinstance(control, tree.Concurrent):
            self._read(reads, block.head)
        self.writer.begin(_OPEN)
        self._inside(block)
        self._loops -= 1
        self.writer.end("END IF")
        self.writer.end("END DO")

    # --- References ----------------------------------------------------------------------------------------------

    def _site(self, written: Written, bound: FrozenSet[str] = frozenset()) -> Site:
        return Site(self._scene.unit.path, written.item.first, written.item.file, bound - self._plan.own)

    def _effects(self, expression: tree.Expression, written: Written) -> Effects:
        return reads_of(expression, self._scene.roles, self._survey.bound[written.number])

    def _terms(self, reads: Iterable[Access], written: Written) -> List[Piece]:
        """The reads that the model has, each once."""
        skipped = set(self._indices.counters) | self._plan.gathered | self._plan.growing
        terms: List[Piece] = []
        for access in reads:
            is_needless = access.within is not None and self._survey.place(access) not in self._survey.changed
            if access.name in skipped or is_needless:
                continue
            headers, use = self._with_sections(access, written)
            if headers:
                self._read_section(headers, use)
            else:
                terms.append(use)
        return list(dict.fromkeys(terms))

    def _read_section(self, headers: Sequence[Pieces], use: Use) -> None:
        for header in headers:
            self.writer.begin(*header)
        self.writer.reads([use])
        for _ in headers:
            self.writer.end("END DO")

    def _with_sections(self, access: Access, written: Written) -> Tuple[List[Pieces], Use]:
        """A reference with the DOs over its sections; where they would be nested too deep, their positions are open."""
        site = self._site(written, access.bound)
        arguments = self._survey.indices(access) or ()
        place = self._survey.place(access)
        headers: List[Pieces] = []
        pieces: Dict[int, Pieces] = {}
        if self._scene.roles.kind_of(place) is Kind.ARRAY:
            sections = [index for index, one in enumerate(arguments) if isinstance(one, tree.Section)]
            for index in sections if len(sections) + self._loops <= MOST_LOOPS else ():
                count = self._plan.section(place, index, arguments[index], site)
                if count is not None:
                    headers.append(count.header)
                    pieces[index] = count.value
        return headers, self._designator(access, written, pieces)

    def _designator(self, access: Access, written: Written, sections: Mapping[int, Pieces] = {}) -> Use:
        """A reference to a scalar, an element, or the first part of a structure."""
        name = self._survey.place(access)
        site = self._site(written, access.bound)
        symbol = self._scene.symbols.get(name)
        origin = Origin(site.unit, site.line, str(access.designator), name, access.writes, site.file)
        model = self._plan.names.name(name)
        if self._scene.roles.kind_of(name) is Kind.ARRAY:
            return Use((model, *self._indices.subscripts_of(name, self._survey.indices(access), site, sections)), origin)
        if symbol.type in ("TYPE", "CLASS") or "%" in name and ":" not in name:
            self._indices.ranks[model] = 1
            return Use((model, "(1)"), origin)
        return Use((model,), origin)

    def _read(self, reads: Iterable[Access], written: Written) -> None:
        """Reads alone."""
        self.writer.reads(self._terms(reads, written))

    def _test(self, reads: Iterable[Access], written: Written) -> None:
        """The first line of an IF whose condition has these reads; those that are too much for it come before."""
        groups = sums(self._terms(reads, written)) or [[OPAQUE]]
        for group in groups[:-1]:
            self.writer.reads(group)
        self.writer.begin("IF (", *sum_of(groups[-1]), ".NE.0) THEN")


def _chooses_alone(statement: tree.Statement) -> bool:
    """Whether a statement that chooses where the run goes on does nothing else; READ with ERR= assigns, too."""
    return isinstance(statement, _READING) or isinstance(statement, tree.LogicalIf) and not isinstance(
        statement.action, BUSY
    )
