"""The documents: the manual's examples print what it shows, and the tables of refusals follow the other pages.

`python3 -m companion.tests.test_documents --write` puts the present output into the manual.
"""

import os
import re
import shutil
import subprocess
import sys
import unittest
from typing import Iterator, List, Match

from .. import VERSION
from ..faults import FAULTS
from ..real.library import LibraryMissing, statement_classes
from ..refusals import OTHERS, REFUSALS, RULES
from ..statuses import Status
from .screens import HINT, NAMED_KEYS, Player, has_terminal
from .support import EXAMPLES, TOP, ped_path

MANUAL = TOP / "docs" / "COMPANION.md"
FIRST_PAGE = TOP / "README.md"

#: A block of the manual that begins with a call.
_BLOCK = re.compile(r"^```\n(\$ .*?)^```$", re.MULTILINE | re.DOTALL)
#: A block that shows the screen of the editor, with the program and the keys that lead to it.
_SCREEN = re.compile(r"^(<!-- screen (\S+): ([^\n]*) -->\n```\n)(.*?)^```$", re.MULTILINE | re.DOTALL)


def printed(block: str) -> str:
    """A block with the present output behind each of its calls."""
    status = 0
    parts: List[str] = []
    for line in block.splitlines():
        if not line.startswith("$ "):
            continue
        if line == "$ echo $?":
            parts.append(f"{line}\n{status}\n")
        else:
            done = subprocess.run(
                ["bash", "-c", line[2:]], cwd=TOP, stdin=subprocess.DEVNULL, stdout=subprocess.PIPE,
                stderr=subprocess.STDOUT, env={**os.environ, "PEDX_PED": ped_path()}, check=False,
            )
            status = done.returncode
            parts.append(f"{line}\n{done.stdout.decode()}")
    return "".join(parts)


def needs_library(block: str) -> bool:
    """Whether a block has calls on real Fortran, which the library fparser reads."""
    return "examples/real/" in block


def needs_compiler(block: str) -> bool:
    """Whether a block has calls that compile a program of the profile and count its run."""
    return any(word in block for word in ("pedx profile", "--counts", "--time"))


def has_library() -> bool:
    """Whether the library fparser is there; tools/check-real.sh, which brings it, has the blocks checked."""
    try:
        statement_classes()
    except LibraryMissing:
        return False
    return True


def rows(page: str, heading: str) -> Iterator[List[str]]:
    """The rows of the first table behind a heading of a page."""
    text = (TOP / "docs" / page).read_text()
    text = text[text.index(f"\n{heading}\n"):]
    table = text[text.index("\n|") + 1:].split("\n\n")[0]
    for row in table.splitlines()[2:]:
        yield [cell.strip() for cell in row.strip("|").split("|")]


def screen(name: str, keys: str) -> str:
    """What `pedx edit` shows of a program once some keys were pressed."""
    player = Player(["edit", name], str(TOP))
    try:
        rows = player.wait(HINT)
        for key in keys.split():
            before = rows
            player.press(NAMED_KEYS.get(key, key))
            rows = player.wait_for_change(before)
        return "".join(row + "\n" for row in rows)
    finally:
        player.close()


class Manual(unittest.TestCase):
    @unittest.skipUnless(has_terminal(), "the library curses is not there, or knows no VT100")
    def test_screen(self) -> None:
        blocks = _SCREEN.findall(MANUAL.read_text())
        self.assertEqual(len(blocks), 1)
        for front, name, keys, block in blocks:
            self.assertEqual(screen(name, keys), block)

    @unittest.skipUnless(has_terminal(), "the library curses is not there, or knows no VT100")
    def test_screen_of_the_first_page(self) -> None:
        """The first page shows the upper rows of the screen."""
        blocks = _SCREEN.findall(FIRST_PAGE.read_text())
        self.assertEqual(len(blocks), 1)
        for _, name, keys, block in blocks:
            shown = screen(name, keys).splitlines()
            self.assertEqual(shown[:len(block.splitlines())], block.splitlines())

    def test_examples(self) -> None:
        blocks = _BLOCK.findall(MANUAL.read_text())
        self.assertGreater(len(blocks), 5)
        for block in blocks:
            if needs_library(block) and not has_library():
                continue
            if needs_compiler(block) and not (shutil.which("gfortran") and shutil.which("gcov")):
                continue
            with self.subTest(block.splitlines()[0]):
                self.assertEqual(printed(block), block)

    def test_statuses(self) -> None:
        named = [int(row[0]) for row in rows("COMPANION.md", "## How a call ends")]
        self.assertEqual(named, [int(status) for status in Status])


class Versions(unittest.TestCase):
    def test_pages(self) -> None:
        """The manual pages and the newest part of the list of changes have the version."""
        for page in ("ped.1", "pedx.1"):
            self.assertIn(f'"ped {VERSION}"', (TOP / "man" / page).read_text().splitlines()[0])
        headings = re.findall(r"^## (\S+)", (TOP / "CHANGELOG.md").read_text(), re.MULTILINE)
        self.assertEqual(headings[0], VERSION)


class Book(unittest.TestCase):
    def test_programs(self) -> None:
        """The page of the book's patterns names each program once, with a row that its session shows."""
        named = []
        for row in (EXAMPLES / "book" / "README.md").read_text().splitlines():
            cells = [cell.strip() for cell in row.strip("|").split("|")]
            if len(cells) != 5 or not cells[1].startswith("`"):
                continue
            name = cells[1].strip("`")
            named.append(name)
            shown = (EXAMPLES / "book" / f"{name}.out").read_text().splitlines()
            with self.subTest(name):
                self.assertIn(cells[3].strip("`") if cells[3] != "none" else "dependences 0", shown)
        self.assertEqual(sorted(named), sorted(path.stem for path in (EXAMPLES / "book").glob("*.f")))


class Tables(unittest.TestCase):
    def test_refusals(self) -> None:
        named = {int(number): name for number, name, _ in rows("LANGUAGE.md", "## Refusals")}
        self.assertEqual(named, {number: refusal.name for number, refusal in REFUSALS.items()})

    def test_rules(self) -> None:
        for rule, *_ in rows("COMMANDS.md", "## Steps"):
            self.assertIn(int(rule.split()[0]), RULES)

    def test_other_refusals(self) -> None:
        text = (TOP / "docs" / "COMMANDS.md").read_text()
        for name in re.findall(r"`L: refused (\w+)`", text):
            self.assertIn(name, OTHERS)

    def test_faults(self) -> None:
        self.assertEqual({int(row[0]) for row in rows("RUNS.md", "## Values")}, set(FAULTS))


def _write() -> None:
    def replaced(match: Match[str]) -> str:
        if needs_library(match.group(1)) and not has_library():
            return match.group(0)
        return f"```\n{printed(match.group(1))}```"

    def drawn(match: Match[str]) -> str:
        return f"{match.group(1)}{screen(match.group(2), match.group(3))}```"

    MANUAL.write_text(_SCREEN.sub(drawn, _BLOCK.sub(replaced, MANUAL.read_text())))


if __name__ == "__main__":
    if sys.argv[1:] == ["--write"]:
        _write()
    else:
        unittest.main()
