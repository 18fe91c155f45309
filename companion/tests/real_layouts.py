"""The same statements in many layouts: what is read doesn't depend on where lines end and what is between them."""

import random
import unittest
from typing import List, NamedTuple, Optional, Tuple

from ..real.items import read_items
from ..real.keywords import letters_of
from ..real.source import read_source

STATEMENTS = (
    "A(I) = B(I) + C*2.0", "PRINT *, 'IT''S ! A & B', \"X'Y\"", "IF (A.GT.B) GO TO 10", "DO 10 I = 1, N",
    "CALL WORK(A, B, 'X;Y')", "X = 'A\\'", "Y = Z ** 2 - (A + B) / C", "CONTINUE", "END",
)
LAYOUTS = 400


class Row(NamedTuple):
    """A statement with its place: first and last line, label, text without blanks outside constants."""

    first: int
    last: int
    label: Optional[int]
    text: str


class Layout:
    """A random layout of statements, with what is wanted of it."""

    def __init__(self, seed: int) -> None:
        self.random = random.Random(seed)
        self.lines: List[str] = []
        self.rows: List[Row] = []

    def parts(self, statement: str, width: int) -> List[str]:
        """A statement in parts of at most so many characters."""
        found = []
        while statement:
            size = min(width, self.random.choice([len(statement), self.random.randint(1, len(statement))]))
            found.append(statement[:size])
            statement = statement[size:]
        return found

    def between(self, *lines: str) -> None:
        """Some comments, or none."""
        while self.random.random() < 0.25:
            self.lines.append(self.random.choice(lines))

    def add(self, first: int, label: str, text: str) -> None:
        """What is wanted for the lines from one on."""
        number = int(label.replace(" ", "")) if label.strip() else None
        self.rows.append(Row(first, len(self.lines), number, letters_of(text, "fixed").full))


def fixed(seed: int) -> Layout:
    """A layout in fixed form: tabs, each kind of continuation, text after column 72."""
    layout = Layout(seed)
    for _ in range(4):
        statement = layout.random.choice(STATEMENTS)
        label = layout.random.choice(["", "", "10", " 20", "3 0"])
        first, parts = len(layout.lines) + 1, layout.parts(statement, 66)
        head = layout.random.choice([f"{label:<5} ", f"{label:<5}0", f"{label}\t"])
        for part in parts[:-1]:
            layout.lines.append(head + part.ljust(66) + layout.random.choice(["", "00012340", "'"]))
            layout.between("C it's", "* A", "", "! x'", "!$Id$", "      ! y")
            head = layout.random.choice(["     &", "     1", "     #", "     !", "\t1"])
        layout.lines.append(head + parts[-1] + layout.random.choice(["", " " * 66 + "!'"]))
        layout.add(first, label, "".join(part.ljust(66) for part in parts[:-1]) + parts[-1])
        layout.between("C it's", "", "! x'", "      ! 'y")
    return layout


def free(seed: int) -> Layout:
    """A layout in free form: continuation inside names and constants, comments after lines and between them."""
    layout = Layout(seed)
    for _ in range(4):
        statement = layout.random.choice(STATEMENTS).replace("DO 10", "DO")
        label = layout.random.choice(["", "", "10 ", "  20 "])
        first, parts = len(layout.lines) + 1, layout.parts(statement, 132)
        head, text = label + layout.random.choice(["", " ", "\t"]), ""
        for part in parts[:-1]:
            text += part
            in_constant = letters_of(text + "\ue003", "free").masked[-1] == "'"
            comment = "" if in_constant else layout.random.choice(["", " ! it's", "! & x"])
            layout.lines.append(f"{head}{part}&{comment}")
            layout.between("", "! x'", "  ! y &", "!$Id")
            head = layout.random.choice(["&", "   &"])
        layout.lines.append(head + parts[-1] + layout.random.choice(["", " ! it's \" & "]))
        layout.add(first, label, statement)
        layout.between("", "! x'", " ! y &")
    return layout


class Layouts(unittest.TestCase):
    def assertRead(self, layout: Layout, form: str) -> None:
        items = read_items(read_source("\n".join(layout.lines) + "\n", form))
        found = [Row(item.first, item.last, item.label, letters_of(item.text, "fixed").full) for item in items]
        self.assertEqual(found, layout.rows, "\n".join(["", *layout.lines]))
        self.assertEqual([item.fault for item in items if item.fault], [])

    def test_fixed_form(self) -> None:
        for seed in range(LAYOUTS):
            self.assertRead(fixed(seed), "fixed")

    def test_free_form(self) -> None:
        for seed in range(LAYOUTS):
            self.assertRead(free(seed), "free")


class Random(unittest.TestCase):
    def test_no_line_is_forgotten(self) -> None:
        """Whatever the lines are, each one that isn't empty or a comment is in an item."""
        pieces: Tuple[str, ...] = (
            "      ", "     &", "&", ";", "'", "\"", "!", "A = 1", "10", "\t", "DO 10 I=1,N", "END", "(", "\\", "#",
            "INCLUDE 'X'", "D", " ", ":", "OUTER:", "5HA'B", "\x1a",
        )
        for seed in range(LAYOUTS):
            source = random.Random(seed)
            lines = ["".join(source.choice(pieces) for _ in range(source.randint(0, 5))) for _ in range(6)]
            for form in ("fixed", "free"):
                read = read_source("\n".join(lines), form)
                covered = {number for item in read_items(read) for number in range(item.first, item.last + 1)}
                wanted = {number for number, line in enumerate(read.layout, 1) if line.strip(" &;\ue001")}
                self.assertLessEqual(wanted, covered, (form, lines))
