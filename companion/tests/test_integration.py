"""What leads to pedx from elsewhere: the problem matchers of editors, and the man pages."""

import argparse
import json
import os
import re
import shutil
import subprocess
import tempfile
import unittest
from pathlib import Path
from typing import Dict, Iterator, List

from ..command_line import _parser
from ..statuses import Status
from .support import TOP, ped_path

_MATCHER = TOP / "editors" / "vscode" / "tasks.json"
_VIM = TOP / "editors" / "vim"
_MAN = TOP / "man"

#: A program with two warnings: text past column 72, and a PARALLEL DO that carries a dependence.
_PROGRAM = "\n".join([
    "      INTEGER A(9)",
    "      K = 1" + " " * 61 + "PAST",
    "      PARALLEL DO I = 2, 9",
    "        A(I) = A(I-1)",
    "      END DO",
    "      END",
    "",
])


def checked(folder: str) -> List[str]:
    """What `pedx check` says of the program."""
    Path(folder, "p.f").write_text(_PROGRAM)
    words = [str(TOP / "pedx"), "check", "p.f"]
    done = subprocess.run(words, cwd=folder, stdout=subprocess.PIPE, env=_environment(), check=False)
    return done.stdout.decode().splitlines()


def _environment() -> Dict[str, str]:
    return {**os.environ, "PEDX_PED": os.path.abspath(ped_path()), "PATH": f"{TOP}:{os.environ['PATH']}"}


class Matchers(unittest.TestCase):
    def setUp(self) -> None:
        self.folder = tempfile.mkdtemp(prefix="pedx-test-")
        self.addCleanup(shutil.rmtree, self.folder)

    def test_visual_studio_code(self) -> None:
        pattern = json.loads(_MATCHER.read_text())["tasks"][0]["problemMatcher"]["pattern"]
        matches = [match for match in map(re.compile(pattern["regexp"]).match, checked(self.folder)) if match]
        parts = ("file", "line", "column", "severity")
        self.assertEqual([tuple(match.group(pattern[part]) for part in parts) for match in matches], [
            ("p.f", "2", "73", "warning"), ("p.f", "3", "7", "warning"),
        ])
        self.assertEqual(matches[0].group(pattern["message"]), "text past column 72 isn't read: PAST")

    @unittest.skipUnless(shutil.which("vim"), "vim is not there")
    def test_vim(self) -> None:
        checked(self.folder)
        show = "call writefile(map(getqflist(), {_, one -> " \
            "bufname(one.bufnr).':'.one.lnum.':'.one.col.':'.one.type}), 'found')"
        words = ["vim", "-Nu", "NONE", "-i", "NONE", "-es", "p.f", "-c", f"set rtp+={_VIM}", "-c", "compiler pedx",
                 "-c", "silent make", "-c", show, "-c", "qa!"]
        subprocess.run(
            words, cwd=self.folder, stdin=subprocess.DEVNULL, stdout=subprocess.DEVNULL, stderr=subprocess.DEVNULL,
            env=_environment(), timeout=120, check=False,
        )
        self.assertEqual(Path(self.folder, "found").read_text().splitlines(), ["p.f:2:73:w", "p.f:3:7:w"])


class ManPages(unittest.TestCase):
    def page(self, name: str) -> str:
        """The text of a page without its requests."""
        text = (_MAN / f"{name}.1").read_text().replace("\\-", "-")
        return re.sub(r"\\f[A-Z]|\"", "", text)

    def test_pedx(self) -> None:
        page = self.page("pedx")
        words = set(re.findall(r"[\w-]+", page))
        for word in _words_of(_parser()):
            self.assertIn(word, words)
        for status in list(Status)[8:]:
            self.assertRegex(page, rf"\.B {int(status)}\n")

    def test_ped(self) -> None:
        words = set(re.findall(r"[\w-]+", self.page("ped")))
        commands = (TOP / "docs" / "COMMANDS.md").read_text()
        named = re.findall(r"^### `(\w+)", commands, re.MULTILINE)
        self.assertGreater(len(named), 15)
        for word in [*named, "advise", "distribute", "fuse"]:
            self.assertIn(word, words)

    @unittest.skipUnless(shutil.which("groff"), "groff is not there")
    def test_layout(self) -> None:
        for page in sorted(_MAN.glob("*.1")):
            done = subprocess.run(
                ["groff", "-man", "-Tutf8", "-ww", "-z", str(page)], stderr=subprocess.PIPE, check=False
            )
            self.assertEqual(done.stderr.decode(), "")


def _words_of(parser: argparse.ArgumentParser) -> Iterator[str]:
    """The commands and options of pedx."""
    for action in parser._actions:
        if isinstance(action, argparse._SubParsersAction):
            for name, command in action.choices.items():
                yield name
                yield from _words_of(command)
        else:
            yield from (option for option in action.option_strings if option not in ("-h", "--help"))


if __name__ == "__main__":
    unittest.main()
