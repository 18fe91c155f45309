"""Whole files: all is read, nothing of an assignment is lost, and gfortran counts as many DOs."""

import re
import shutil
import subprocess
import tempfile
import unittest
from pathlib import Path
from typing import Iterator, List, Tuple

from ..ped import read_file as read_text
from ..real import tree
from ..real.blocks import read_file
from ..real.keywords import letters_of
from ..real.units import File, Unit, Written
from .support import TOP

FOLDER = TOP / "companion" / "tests" / "real"

#: A DO in gfortran's dump of a program; those with two underscores are its own.
_DUMPED_DO = re.compile(r"(?<!END )\bDO +(?!__)[\w.]")
_RELATIONS = {"==": ".EQ.", "/=": ".NE.", "<=": ".LE.", ">=": ".GE.", "<": ".LT.", ">": ".GT."}


def corpora() -> List[Path]:
    """The files that are read."""
    return sorted(path for path in FOLDER.iterdir() if path.suffix in (".f", ".f90"))


def read(path: Path) -> File:
    """A file as it is read."""
    return read_file(str(path), read_text(str(path)))


def statements(file: File) -> Iterator[Tuple[Unit, Written]]:
    """All statements of a file with their units."""
    for unit in file.all_units():
        for written in unit.statements():
            yield unit, written


def implied_dos(statement: tree.Statement) -> int:
    """How many implied DOs an input or output has; gfortran makes DOs of them."""
    if isinstance(statement, tree.LogicalIf):
        return implied_dos(statement.action)
    return sum(map(_implied, statement.items)) if isinstance(statement, tree.InputOutput) else 0


def _implied(expression: tree.Expression) -> int:
    return isinstance(expression, tree.ImpliedDo) + sum(map(_implied, expression.parts()))


class Corpora(unittest.TestCase):
    def test_all_statements_are_read(self) -> None:
        self.assertGreaterEqual(len(corpora()), 2)
        for path in corpora():
            file = read(path)
            self.assertEqual([unit.faults for unit in file.all_units() if unit.faults], [], path.name)
            unread = [written for _, written in statements(file) if isinstance(written.statement, tree.Unreadable)]
            self.assertEqual(unread, [], path.name)

    def test_nothing_of_an_assignment_is_lost(self) -> None:
        for path in corpora():
            file = read(path)
            for _, written in statements(file):
                statement = written.statement
                if isinstance(statement, tree.Assignment):
                    self.assertEqual(f"{statement.target}={statement.value}", self.plain(written, file.form))

    @staticmethod
    def plain(written: Written, form: str) -> str:
        """The text of an assignment as a tree is printed."""
        letters = letters_of(letters_of(written.item.text, form).full, "fixed")
        text, constants = letters.full, re.findall("''+", letters.masked)
        if not constants:
            text = re.sub("==|/=|<=|>=|<|>", lambda match: _RELATIONS[match.group()], text)
        return text.replace("(/", "[").replace("/)", "]") if not constants else text

    def test_gfortran_counts_as_many_dos(self) -> None:
        if shutil.which("gfortran") is None:
            self.skipTest("gfortran isn't there")
        for path in corpora():
            file = read(path)
            implied = sum(implied_dos(written.statement) for _, written in statements(file))
            loops = sum(1 for unit in file.all_units() for _ in unit.loops())
            self.assertEqual(loops + implied, self.dumped_dos(path), path.name)

    @staticmethod
    def dumped_dos(path: Path) -> int:
        """The DOs of a file by gfortran."""
        with tempfile.TemporaryDirectory() as folder:
            dump = subprocess.run(
                ["gfortran", "-std=legacy" if path.suffix == ".f" else "-std=f2018", "-fsyntax-only",
                 "-fdump-parse-tree", f"-J{folder}", str(path)],
                check=True, stdout=subprocess.PIPE, stderr=subprocess.DEVNULL, universal_newlines=True,
            )
        return len(_DUMPED_DO.findall(dump.stdout))


class LineEnds(unittest.TestCase):
    def test_lines_are_those_of_the_user(self) -> None:
        for path in corpora():
            text = read_text(str(path))
            whole = read(path)
            other = read_file(str(path), text.replace("\n", "\r\n").rstrip("\r\n"))
            self.assertEqual(other.lines, whole.lines)
            self.assertEqual([repr(unit) for unit in other.units], [repr(unit) for unit in whole.units])
