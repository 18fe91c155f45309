"""`pedx edit` and a user's files: what it writes over, what it does with a text that ped refuses, and odd names."""

import os
import shutil
import stat
import unittest
from pathlib import Path
from typing import Optional

from .screens import ENTER, ESCAPE, INTERRUPT, TAB, Player
from .support import fortran
from .test_editor import CHAIN, TWICE, Played
from .test_files import fill, mounted


class Files(Played):
    def editor(
        self, source: str = TWICE, *words: str, folder: Optional[str] = None, name: str = "p.f", **environment: str
    ) -> Player:
        """An editor on a program, which is there once its screen is."""
        Path(folder or self.folder, os.path.basename(name)).write_text(source)
        variables = {"EDITOR": self._editor(), **environment}
        player = Player(["edit", *words, "--", name], folder or self.folder, environment=variables)
        self.players.append(player)
        player.wait("? keys")
        return player

    def step(self, player: Player, key: str, words: str) -> None:
        player.press(key)
        player.wait(words)

    def save(self, player: Player, words: str) -> None:
        """Saves the script as it's offered, and waits for what is said then."""
        player.press("w")
        player.wait("save the script as")
        player.press(ENTER)
        player.wait(words)


class Saving(Files):
    def test_own_file(self) -> None:
        """What the editor has written is written over without a question, and its mode is kept."""
        player = self.editor()
        self.step(player, "p", "parallel 1: ok")
        self.save(player, "p.script holds 1 change and")
        self.path("p.script").chmod(0o640)
        self.step(player, "n", "loop 3")
        self.step(player, "r", "reverse 3")
        self.step(player, "u", "undone: parallel 1")
        self.save(player, "p.script holds 0 changes and")
        self.assertEqual(self.path("p.script").read_text(), "")
        self.assertEqual(stat.S_IMODE(self.path("p.script").stat().st_mode), 0o640)

    def test_two_editors(self) -> None:
        """Neither writes over what the other has saved, unless the user says so."""
        first, second = self.editor(), self.editor()
        self.step(first, "p", "parallel 1: ok")
        self.step(second, "r", "reverse 1: ok")
        self.save(first, "p.script holds 1 change and")
        self.save(second, "p.script is there; write over it?")
        self.step(second, "n", "nothing was written")
        self.assertEqual(self.path("p.script").read_text(), "parallel 1\n")
        self.save(second, "p.script is there; write over it?")
        self.step(second, "y", "p.script holds 1 change and")
        self.step(first, "u", "undone: parallel 1")
        self.step(first, "i", "interchange 1: refused")
        self.step(first, "p", "parallel 1: ok")
        self.save(first, "p.script is there; write over it?")
        self.step(first, "n", "nothing was written")
        self.assertEqual(self.path("p.script").read_text(), "reverse 1\n")

    def test_script_that_has_changed(self) -> None:
        """A script that the editor began with is its own as long as it holds the same."""
        self.path("s").write_text("parallel 1\n")
        player = self.editor(TWICE, "--script", "s")
        times = self.path("s").stat()
        self.path("s").write_text("reverse  1\n")
        os.utime(str(self.path("s")), ns=(times.st_atime_ns, times.st_mtime_ns))
        self.save(player, "s is there; write over it?")
        self.step(player, "n", "nothing was written")
        self.path("s").write_text("parallel 1\n")
        self.save(player, "s holds 1 change and")

    def test_program_over_the_script(self) -> None:
        """What the editor has written counts as its own for texts of the same kind alone."""
        player = self.editor()
        self.step(player, "p", "parallel 1: ok")
        self.save(player, "p.script holds 1 change and")
        self.step(player, "W", "write the program to")
        player.press(*"p.script", ENTER)
        player.wait("p.script is there; write over it?")
        self.step(player, "n", "nothing was written")
        self.save(player, "p.script holds 1 change and")

    def test_symbolic_link(self) -> None:
        self.path("real").mkdir()
        self.path("p.script").symlink_to(Path("real", "script"))
        player = self.editor()
        self.step(player, "p", "parallel 1: ok")
        self.save(player, "p.script holds 1 change and")
        self.assertTrue(self.path("p.script").is_symlink())
        self.assertEqual(self.path("real").joinpath("script").read_text(), "parallel 1\n")

    def test_full_disk(self) -> None:
        """The old script stays whole, and the changes stay unsaved."""
        place = mounted(self)
        if place is None:
            self.skipTest("no file system may be mounted")
        player = self.editor(CHAIN, folder=place)
        self.step(player, "l", "first or last?")
        self.step(player, ENTER, "peel 2 first: ok")
        self.save(player, "p.script holds 1 change and")
        fill(place)
        self.step(player, "l", "first or last?")
        self.step(player, TAB, "first or last? last")
        self.step(player, ENTER, "peel 3 last: ok")
        self.save(player, "cannot write p.script: No space left on device")
        self.assertIn("2 changes, not saved", player.screen.rows[0])
        self.assertEqual(Path(place, "p.script").read_text(), "peel 2 first\n")
        self.assertEqual(sorted(os.listdir(place)), ["p.f", "p.script", "rest"])

    def test_pipes_and_devices(self) -> None:
        """They are refused at once where nothing is at their other ends; else Ctrl-C ends the wait."""
        for name in ("p.script", "data"):
            os.mkfifo(self.path(name))
        player = self.editor()
        self.step(player, "p", "parallel 1: ok")
        self.save(player, "cannot write p.script: it's no plain file")
        self.assertTrue(stat.S_ISFIFO(self.path("p.script").stat().st_mode))
        self.step(player, "D", "data from which file?")
        player.press(*"data", ENTER)
        player.wait("cannot read data: nothing writes to this pipe")
        writer = os.open(str(self.path("data")), os.O_RDWR)
        self.addCleanup(os.close, writer)
        self.step(player, "D", "data from which file?")
        player.press(*"data", ENTER)
        player.wait("data is read ..")
        self.step(player, INTERRUPT, "data is read: given up")

    @unittest.skipUnless(shutil.which("gfortran"), "gfortran is not there")
    def test_compiled_program(self) -> None:
        """The compiler gets a name that begins with a dash as that of a file; another one's file isn't written over."""
        self.path("-p-omp").write_text("another one's")
        player = self.editor(TWICE, name="-p.f")
        self.step(player, "O", "print the variables in SAVE")
        self.step(player, "n", "write the OpenMP program to -p-omp.f")
        self.step(player, ENTER, "./-p-omp.f: compile it?")
        self.step(player, "y", "./-p-omp is there; write over it?")
        self.step(player, "n", "nothing was written")
        self.assertEqual(self.path("-p-omp").read_text(), "another one's")
        self.path("-p-omp").unlink()
        for _ in range(2):
            self.step(player, "O", "print the variables in SAVE")
            self.step(player, "n", "write the OpenMP program to -p-omp.f")
            self.step(player, ENTER, "compile it?")
            self.step(player, "y", "run it with four threads?")
            self.step(player, "n", "compiled")


class Edits(Files):
    def test_period(self) -> None:
        """A line that is a period and nothing else can't be put into a program; the text isn't lost."""
        self.will_edit("      END DO", ".", ".", "      END DO")
        player = self.editor(CHAIN)
        self.step(player, "e", "line 6: a line that is a period and nothing else can't be put")
        self.step(player, ESCAPE, "edit on, write the text to a file, or drop it?")
        self.step(player, "w", "write the text to p-edited.f")
        self.step(player, ESCAPE, "nothing was done")
        self.step(player, "e", "the edit changed nothing")

    def test_too_long(self) -> None:
        """A text above the limit of ped may be edited on, and written to a file."""
        self.path("long.py").write_text(
            "import sys\nwith open(sys.argv[1], 'a') as file:\n    file.write(('C' * 70 + '\\n') * 16000)\n"
        )
        player = self.editor(CHAIN, EDITOR=f"python3 {self.path('long.py')}")
        self.step(player, "e", "is longer than 1048576 bytes")
        self.step(player, "w", "write the text to p-edited.f")
        self.step(player, ENTER, "p-edited.f is written")
        self.assertEqual(self.path("p-edited.f").read_text().count("\n"), CHAIN.count("\n") + 16000)
        player.press("q")
        self.assertEqual(player.wait_for_end(), 0)

    def test_text_that_cannot_be_written(self) -> None:
        """Where the text can't be written to a file, it's still there."""
        self.will_edit("END DO", "ENDE", "ENDE", "END DO")
        player = self.editor(CHAIN)
        self.step(player, "e", "edit on, write the text to a file, or drop it?")
        self.step(player, "w", "write the text to p-edited.f")
        player.press(*"/nowhere/x", ENTER)
        player.wait("cannot write /nowhere/x")
        self.step(player, "e", "the edit changed nothing")

    def test_editor_that_fails(self) -> None:
        """A user's editor that ends badly, or that is gone, loses nothing of what it has written."""
        self.path("fails.py").write_text(
            "import os, sys\ntext = open(sys.argv[1]).read().replace('A(I-1)', 'A(I-1)*7')\n"
            "open(sys.argv[1], 'w').write(text)\nos.unlink(__file__)\nsys.exit(3)\n"
        )
        player = self.editor(CHAIN, EDITOR=f"python3 {self.path('fails.py')}")
        self.step(player, "e", "python3 ended with status 3")
        self.step(player, "e", "python3 ended with status 2")
        self.step(player, "w", "write the text to p-edited.f")
        self.step(player, ENTER, "p-edited.f is written")
        self.assertIn("A(I-1)*7", self.path("p-edited.f").read_text())

    def test_no_editor(self) -> None:
        for words, told in (("/nowhere/editor", "cannot start /nowhere/editor"), ("'vi", "$EDITOR isn't understood")):
            player = self.editor(CHAIN, EDITOR=words)
            self.step(player, "e", told)
            self.step(player, "n", "? keys")


class Odd(Files):
    def test_locales(self) -> None:
        """A locale that the host lacks is no error; where it lacks a letter, there's a mark in its place."""
        source = "C     L\u00f6sung \u20ac\n" + CHAIN
        for name, wanted in (("xx_YY.UTF-8", "L\u00f6sung \u20ac"), ("xx_YY", "L?sung ?"), ("C", "L?sung ?")):
            player = self.editor(source, LC_ALL=name)
            self.assertIn(f"C     {wanted}", "\n".join(player.screen.rows))

    def test_orders_to_terminals(self) -> None:
        """Neither of a program nor of a name a byte is obeyed by the terminal; names needn't be UTF-8."""
        source = "C     \x1b[7m\x1b]0;title\x07\n" + CHAIN
        for name in ("\x1b[7m.f", os.fsdecode(b"\xff\x9b7m.f")):
            player = self.editor(source, name=name)
            self.assertIn("C     ?[7m?]0;title?", "\n".join(player.screen.rows))
            self.step(player, "w", "save the script as ?")
            self.step(player, ENTER, "holds 0 changes")
            player.press("q")
            self.assertEqual(player.wait_for_end(), 0)
            self.assertTrue(os.path.exists(os.path.join(self.folder, name[:-2] + ".script")))

    def test_long_answers(self) -> None:
        """Of an answer that is wider than the screen the end is seen, where it's typed."""
        player = self.editor(fortran("K = 1", "END"))
        self.step(player, "W", "write the program to")
        player.press(*"x" * 90, *"END")
        player.wait("xxxEND")


if __name__ == "__main__":
    unittest.main()
