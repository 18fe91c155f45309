"""What reaches a terminal: nothing that it obeys. A file or another program gets the bytes as they are."""

import os
import pty
import shutil
import subprocess
import sys
import tempfile
import unittest
from pathlib import Path
from typing import List, Sequence, Tuple, Union

from ..command_line import main
from ..output import printable, readable, visible
from .support import TOP, ped_path

#: A colour, a new title of the window, a bell, a colour by a character above 127, and letters.
ORDERS = b"\x1b[31m \x1b]0;title\x07 \xc2\x9b31m L\xc3\xb6sung"
#: Comments may hold any byte, also such that are no UTF-8. The loop carries A.
PROGRAM = b"".join(line + b"\n" for line in (
    b"C     " + ORDERS, b"C     \x9b31m\xf6", b"      INTEGER A(9)", b"      A(1) = 1", b"      DO 10 I = 2, 9",
    b"C     " + ORDERS, b"   10 A(I) = A(I-1)", b"      END",
))
#: What a terminal may get beside text.
_LAYOUT = "\r\n\t"


class Texts(unittest.TestCase):
    def test_printable(self) -> None:
        self.assertEqual(printable("a\tb\x1b\x9b\x7f\u202e\ud800c"), "a?b?????c")
        self.assertEqual(printable("Lösung €", "ascii"), "L?sung ?")
        self.assertEqual(printable("Lösung €", "latin-1"), "Lösung ?")

    def test_readable(self) -> None:
        """Bytes that are no UTF-8 are letters each."""
        self.assertEqual(readable("ö".encode().decode("latin-1")), "ö")
        self.assertEqual(readable("\xf6"), "ö")
        self.assertEqual(visible("ö\x1b".encode().decode("latin-1")), "ö?")


class Calls(unittest.TestCase):
    def setUp(self) -> None:
        self.folder = tempfile.mkdtemp(prefix="pedx-test-")
        self.addCleanup(shutil.rmtree, self.folder)
        Path(self.folder, "p.f").write_bytes(PROGRAM)

    def on_terminal(self, words: Sequence[Union[str, bytes]], locale: str = "C.UTF-8") -> Tuple[int, str]:
        """The status of a call whose output and messages go to a terminal, and what that gets."""
        process, terminal = pty.fork()
        if process == 0:
            self._call(words, locale)
        pieces: List[bytes] = []
        try:
            while pieces[-1:] != [b""]:
                pieces.append(os.read(terminal, 65536))
        except OSError:
            pass
        os.close(terminal)
        return os.WEXITSTATUS(os.waitpid(process, 0)[1]), b"".join(pieces).decode("utf-8")

    def _call(self, words: Sequence[Union[str, bytes]], locale: str) -> None:
        """Becomes a call of pedx, in the process of the test, which has the modules already."""
        status = 127
        try:
            os.environ.update({"PEDX_PED": os.path.abspath(ped_path()), "LC_ALL": locale})
            os.chdir(self.folder)
            sys.stdout, sys.stderr = (open(descriptor, "w", closefd=False) for descriptor in (1, 2))
            status = main([os.fsdecode(word) for word in words])
        except SystemExit as end:
            status = int(str(end.code))
        finally:
            os._exit(status)

    def piped(self, *words: str) -> bytes:
        """What another program gets of a call."""
        return subprocess.run(
            [sys.executable, str(TOP / "pedx"), *words], cwd=self.folder, stdout=subprocess.PIPE, check=True,
            env={**os.environ, "PEDX_PED": os.path.abspath(ped_path())},
        ).stdout

    def assert_text(self, text: str) -> None:
        wrong = [letter for letter in text if not letter.isprintable() and letter not in _LAYOUT]
        self.assertEqual(wrong, [], text)

    def test_commands(self) -> None:
        for words in (
            ["loops"], ["tune"], ["why"], ["check", "--run"], ["graph"], ["json"], ["omp"],
            ["omp", "-o", "/dev/stdout"],
        ):
            with self.subTest(words):
                status, text = self.on_terminal([words[0], "p.f", *words[1:]])
                self.assertEqual(status, 0, text)
                self.assert_text(text)
                if words[0] == "omp":
                    self.assertIn("C     ?[31m ?]0;title? ?31m Lösung\r\nC     ?31mö\r\n", text)

    def test_names_and_words(self) -> None:
        """The names of files, and words that aren't understood."""
        calls: Sequence[Tuple[List[Union[str, bytes]], str]]
        odd = b"\x1b[31mL\xc3\xb6sung\x1b]0;x\x07.f"
        Path(os.fsdecode(os.path.join(os.fsencode(self.folder), odd))).write_bytes(b"      K = (1\n      END\n")
        calls = [
            (["check", odd], "error: 7 Syntax"), (["loops", odd + b"x"], "cannot read ?[31mLösung"),
            (["why", "p.f", odd], "unrecognized arguments: ?[31mLösung"), (["edit", "p.f", b"--" + ORDERS], "usage"),
            (["loops", "p.f", "--ped", odd], "cannot start"), ([ORDERS], "invalid choice"),
            (["omp", "p.f", "-o", b"/nowhere/" + odd], "cannot write /nowhere/?[31mLösung"),
            (["loops", "p.f", "--script", odd], "?[31mLösung?]0;x?.f:1:1: error: refused"),
        ]
        for words, wanted in calls:
            with self.subTest(words):
                status, text = self.on_terminal(words)
                self.assertNotEqual(status, 0)
                self.assertIn(wanted, text.replace("\r\n", ""))
                self.assert_text(text)

    def test_pipes(self) -> None:
        self.assertIn(b"C     " + ORDERS + b"\n", self.piped("omp", "p.f"))
        self.piped("omp", "p.f", "-o", "out.f")
        self.assertIn(b"C     " + ORDERS + b"\n", Path(self.folder, "out.f").read_bytes())

    def test_locales(self) -> None:
        """Where a locale lacks a letter there's a mark in its place; where the host lacks the locale it's guessed."""
        for name, wanted in (("C", "L?sung"), ("xx_YY", "L?sung"), ("C.UTF-8", "Lösung"), ("xx_YY.UTF-8", "Lösung")):
            with self.subTest(name):
                status, text = self.on_terminal(["omp", "p.f"], name)
                self.assertEqual(status, 0)
                self.assertIn(wanted, text)
                self.assert_text(text)


if __name__ == "__main__":
    unittest.main()
