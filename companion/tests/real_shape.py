"""Iterations without jumps: each way through an iteration is a way through its shape."""

import random
import unittest
from typing import Dict, Iterator, List, Sequence, Set, Tuple

from ..real import items, tree, units
from ..real.flow import END, Body
from ..real.shape import Choice, Maybe, Part, Single, bare_statements, inner_blocks, shape_of
from .real_programs import outline, subroutine


def text(*lines: str, index: int = 0) -> str:
    """The shape of an iteration of a DO on line 3, as text."""
    made = subroutine("DO 99 I = 1, N", *lines, "99 CONTINUE")
    return outline(made, made.shape(index))


class Shapes(unittest.TestCase):
    def test_without_jumps(self) -> None:
        self.assertEqual(text("X = 1", "DO J = 1, N", "Y = 1", "END DO", "Z = 1"), "4 5 8")
        self.assertEqual(text("IF (X > 1) Y = 1", "IF (X > 1) THEN", "Y = 1", "END IF"), "4 5?(6|)")
        self.assertEqual(
            text("IF (X > 1) THEN", "Y = 1", "ELSE IF (X > 2) THEN", "Y = 2", "ELSE", "Y = 3", "END IF"),
            "4?(5|6?(7|9))",
        )
        self.assertEqual(
            text("SELECT CASE (K)", "CASE (1)", "Y = 1", "CASE (2)", "Y = 2", "CASE DEFAULT", "Y = 3", "END SELECT"),
            "4?(6|8|10)",
        )
        self.assertEqual(text("WHERE (A > 1)", "A = 1", "END WHERE", "FORALL (J=1:9) B(J) = 1"), "4 7")

    def test_cycle(self) -> None:
        self.assertEqual(text("IF (X > 1) CYCLE", "Y = 1"), "4?(|5)")
        self.assertEqual(text("IF (X > 1) GO TO 99", "Y = 1", "IF (Y > 1) GO TO 99", "Z = 1"), "4?(|5 6?(|7))")
        self.assertEqual(text("CYCLE", "Y = 1"), "")

    def test_forward_jumps(self) -> None:
        self.assertEqual(text("IF (X > 1) GO TO 10", "Y = 1", "10 Z = 1"), "4?(|5) 6")
        self.assertEqual(text("IF (X > 1) GO TO 10", "Y = 1", "GO TO 20", "10 Z = 1", "20 W = 1"), "4?(7|5) 8")
        self.assertEqual(
            text("IF (X) 10, 20, 30", "10 Y = 1", "GO TO 40", "20 Y = 2", "GO TO 40", "30 Y = 3", "40 Z = 1"),
            "4?(5|7|9) 10",
        )
        self.assertEqual(text("GO TO (10, 20), K", "Y = 1", "GO TO 30", "10 Y = 2", "GO TO 30", "20 Y = 3", "30 Z = 1"),
                         "4?(7|9|5) 10")

    def test_several_jumps_to_one_place(self) -> None:
        """Line 8 is reached from lines 4 and 6, and each of lines 5 to 8 may be missed."""
        self.assertEqual(
            text("IF (X > 1) GO TO 10", "Y = 1", "IF (Y > 1) GO TO 10", "W = 1; GO TO 20", "10 Z = 1", "20 V = 1"),
            "4 [5 6] [7] [8] 9",
        )

    def test_fall_through(self) -> None:
        """An arithmetic IF whose places run into each other."""
        self.assertEqual(text("IF (X) 10, 20, 30", "10 Y = 1", "20 Y = 2", "30 Y = 3"), "4 [5] [6] 7")

    def test_choice_in_a_part_that_may_be_left_out(self) -> None:
        self.assertEqual(
            text("IF (X) 10, 20, 30", "10 IF (Y > 1) THEN", "Y = 1", "ELSE", "Y = 2", "END IF", "Z = 1", "20 W = 2",
                 "30 V = 3"),
            "4 [5?(6|8) 10] [11] 12",
        )

    def test_jump_out_of_an_inner_loop(self) -> None:
        self.assertEqual(text("DO J = 1, N", "IF (A(J) > 1) GO TO 10", "END DO", "Y = 1", "10 Z = 1"), "4 ?(7|) 8")

    def test_inner_body(self) -> None:
        """A jump out of an inner DO ends its iteration."""
        made = subroutine("DO I = 1, N", "DO J = 1, N", "IF (A(J) > 1) EXIT", "Y = 1", "END DO", "END DO")
        self.assertEqual(outline(made, made.facts.inner_shape(made.loops[1])), "5?(|6)")

    def test_deep_choices(self) -> None:
        """Of 200 nested choices 60 are made. After the 61st IF each pair of lines may be left out."""
        lines = [line for number in range(200) for line in (f"IF (X > {number}) GO TO 99", "Y = 1")]
        shape = text(*lines)
        self.assertEqual(shape.count("?("), 60)
        self.assertEqual(shape.count("["), 140)

    def test_bare_statements(self) -> None:
        made = subroutine("DO I = 1, N", "X = 1", "IF (X > 2) Y = 1", "IF (X > 1) CYCLE", "Z = 1", "END DO")
        bare = bare_statements(made.shape())
        self.assertEqual(sorted(made.written(line).number for line in (4, 5)), sorted(bare))

    def test_inner_blocks(self) -> None:
        made = subroutine("DO I = 1, N", "IF (X > 2) THEN", "DO J = 1, N", "END DO", "END IF", "END DO")
        self.assertEqual([block.head.item.first for block in inner_blocks(made.shape())], [5])


class RandomGraphs(unittest.TestCase):
    """Graphs whose edges lead forward, with up to three from a node: every way is a way of the shape."""

    def test_ways(self) -> None:
        numbers = random.Random(71)
        count = 0
        for _ in range(1500):
            body = _random_body(numbers)
            shape = shape_of(body)
            for way in _ways(body, body.first):
                count += 1
                self.assertIn(len(way), _matched(shape, way, {0}), (body.successors, way, shape))
        self.assertGreater(count, 5000)

    def test_order(self) -> None:
        """No shape has a node twice, and all have the order of the text within a way."""
        numbers = random.Random(72)
        for _ in range(300):
            nodes = list(_numbers(shape_of(_random_body(numbers))))
            self.assertEqual(len(nodes), len(set(nodes)))


def _random_body(numbers: random.Random) -> Body:
    size = numbers.randint(1, 9)
    successors: Dict[int, Tuple[int, ...]] = {}
    for node in range(size):
        places = [*range(node + 1, size), END]
        near = [one for one in places if one == END or one <= node + 4]
        chosen = [numbers.choice(near) for _ in range(numbers.choice((1, 1, 2, 2, 3)))]
        successors[node] = tuple(dict.fromkeys([*chosen, places[0]] if numbers.random() < 0.7 else chosen))
    statement = tree.Assignment(tree.Name("X"), tree.Name("Y"))
    item = items.Item(1, 1, None, "", "X = Y")
    nodes: Dict[int, units.Node] = {
        node: units.Written(node, item, "=", lambda *_: statement) for node in range(size)
    }
    return Body(0, nodes, successors)


def _ways(body: Body, node: int) -> Iterator[List[int]]:
    if node == END:
        yield []
        return
    for following in body.successors[node]:
        for way in _ways(body, following):
            yield [node, *way]


def _matched(parts: Sequence[Part], way: List[int], begins: Set[int]) -> Set[int]:
    """The indices in a way up to which parts may have led from some indices."""
    for part in parts:
        begins = _matched_part(part, way, begins)
    return begins


def _matched_part(part: Part, way: List[int], begins: Set[int]) -> Set[int]:
    if isinstance(part, Single):
        return _matched_node(part.node, way, begins)
    if isinstance(part, Maybe):
        return begins | _matched(part.parts, way, begins)
    assert isinstance(part, Choice)
    after = begins if part.head is None else _matched_node(part.head, way, begins)
    return set().union(*(_matched(branch, way, after) for branch in part.branches))


def _matched_node(node: units.Node, way: List[int], begins: Set[int]) -> Set[int]:
    number = node.number if isinstance(node, units.Written) else node.head.number
    return {begin + 1 for begin in begins if begin < len(way) and way[begin] == number}


def _numbers(parts: Sequence[Part]) -> Iterator[int]:
    for part in parts:
        if isinstance(part, Single):
            yield part.node.number if isinstance(part.node, units.Written) else part.node.head.number
        elif isinstance(part, Maybe):
            yield from _numbers(part.parts)
        elif isinstance(part, Choice):
            if part.head is not None:
                yield part.head.number
            for branch in part.branches:
                yield from _numbers(branch)
