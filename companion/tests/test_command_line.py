"""Calls of pedx: words, statuses, files, and how the program ped is found."""

import os
import shutil
import subprocess
import sys
import unittest
from typing import List
from pathlib import Path

from ..statuses import Status
from .calling import Calling
from .support import TOP

RECURRENCE = "examples/panes/recurrence.f"
class Calls(Calling):
    def test_done(self) -> None:
        for command in ("loops", "why", "omp", "check", "graph", "json"):
            self.ends(Status.DONE, [command, RECURRENCE])

    def test_bad_words(self) -> None:
        calls: List[List[str]] = [
            [], ["show", RECURRENCE], ["loops"], ["tune", RECURRENCE, "x"], ["why", RECURRENCE, "--kind", "x"],
        ]
        for words in calls:
            self.ends(Status.BAD_WORDS, words, "usage: pedx")
        self.ends(Status.NOT_READ, ["loops", RECURRENCE, "x"], "cannot read x")
        self.ends(Status.BAD_WORDS, ["loops", RECURRENCE, "2"], "statement 2 of examples/panes/recurrence.f is no DO")
        self.ends(Status.BAD_WORDS, ["loops", RECURRENCE, "--data", RECURRENCE], "--data wants --script")

    def test_help(self) -> None:
        self.assertIn("exit statuses", self.ends(Status.DONE, ["--help"]))
        self.assertIn("--no-trials", self.ends(Status.DONE, ["loops", "--help"]))

    def test_files(self) -> None:
        self.ends(Status.NOT_READ, ["loops", "examples/none.f"], "pedx: error: cannot read examples/none.f: ")
        self.ends(Status.NOT_READ, ["check", RECURRENCE, "--script", self.folder], f"cannot read {self.folder}: ")
        self.ends(Status.NOT_READ, ["omp", RECURRENCE, "-o", self.folder], f"cannot write {self.folder}: ")
        target = str(Path(self.folder, "out.f"))
        self.assertEqual(self.ends(Status.DONE, ["omp", RECURRENCE, "-o", target]), "")
        self.assertEqual(Path(target).read_text(), self.ends(Status.DONE, ["omp", RECURRENCE]))

    @unittest.skipUnless(os.path.exists("/dev/zero"), "no device without an end")
    def test_pipes_and_devices(self) -> None:
        """Nothing waits for the other end of a pipe, or reads without end."""
        pipe = str(Path(self.folder, "pipe"))
        os.mkfifo(pipe)
        self.ends(Status.NOT_READ, ["check", pipe], f"cannot read {pipe}: nothing writes to this pipe")
        self.ends(Status.NOT_READ, ["check", RECURRENCE, "--script", pipe], "nothing writes to this pipe")
        self.ends(Status.NOT_READ, ["omp", RECURRENCE, "-o", pipe], f"cannot write {pipe}: nothing reads from this pipe")
        self.ends(Status.TOO_LONG, ["check", "/dev/zero"], "/dev/zero is longer than 4194304 bytes")
        self.ends(Status.DONE, ["omp", RECURRENCE, "-o", os.devnull])

    @unittest.skipUnless(os.path.exists("/bin/sh"), "no shell")
    def test_closed_output(self) -> None:
        """Standard output that was closed before the call; with standard error closed there's the status alone."""
        for closed, said in ((">&-", "standard output is closed"), (">&- 2>&-", "")):
            done = subprocess.run(
                ["/bin/sh", "-c", f'exec "$@" {closed}', "sh", sys.executable, str(TOP / "pedx"), "json", RECURRENCE],
                cwd=TOP, stdout=subprocess.PIPE, stderr=subprocess.PIPE, universal_newlines=True, check=False,
            )
            self.assertEqual(done.returncode, Status.NOT_WRITTEN)
            self.assertIn(said, done.stderr)

    def test_name_with_a_dash(self) -> None:
        shutil.copy(str(TOP / RECURRENCE), str(Path(self.folder, "-p.f")))
        words = [sys.executable, str(TOP / "pedx"), "loops", "--", "-p.f"]
        done = subprocess.run(words, cwd=self.folder, stdout=subprocess.PIPE, check=False)
        self.assertEqual(done.returncode, Status.DONE)

    @unittest.skipUnless(os.path.exists("/dev/full"), "no device that is full")
    def test_full_output(self) -> None:
        with open("/dev/full", "wb") as full:
            done = subprocess.run(
                [sys.executable, str(TOP / "pedx"), "json", RECURRENCE], cwd=TOP, stdout=full, stderr=subprocess.PIPE,
                universal_newlines=True, check=False,
            )
        self.assertEqual((done.returncode, done.stderr[:26]), (Status.NOT_WRITTEN, "pedx: error: cannot write:"))

    def test_refused(self) -> None:
        for command in ("loops", "why", "omp", "json", "graph"):
            words = [command, "examples/panes/refused.f"] + ["--profile"] * (command != "graph")
            out = self.ends(Status.PROGRAM_REFUSED, words, "examples/panes/refused.f:4:7: error: 11 IndexAssig")
            self.assertEqual(out, "")
        out = self.ends(Status.PROGRAM_REFUSED, ["check", "examples/panes/refused.f"])
        self.assertTrue(out.startswith("examples/panes/refused.f:4:7: "))

    def test_refused_line_of_a_script(self) -> None:
        script = self.file("script", "undo\n")
        words = ["loops", RECURRENCE, "--script", script]
        out = self.ends(Status.LINE_REFUSED, words, f"{script}:1:1: error: refused Noth")
        self.assertIn("carries A", out)

    def test_session(self) -> None:
        words = ["--script", "examples/steps/squares.script"]
        self.assertEqual(self.ends(Status.DONE, ["loops", "examples/steps/squares.f", *words]), self.ends(
            Status.DONE, ["loops", "examples/steps/squares.f", "--printed"]
        ), "the script takes all its changes back")
        script = self.file("script", "privatise 3 T\n")
        out = self.ends(Status.DONE, ["loops", "examples/steps/squares.f", "--script", script, "--no-trials"])
        self.assertIn("   3     8  DO I = 1, 5  free: carries nothing\n", out)

    def test_check_statuses(self) -> None:
        words = ["examples/sessions/means.f", "--script", "examples/sessions/means.script", "--data", "examples/sessions/means.data"]
        self.ends(Status.FAULT, ["check", *words])
        racing = self.file("p.f", "      PARALLEL DO 10 I = 1, 2\n   10 K = I\n      END\n")
        self.ends(Status.RACE, ["check", "--run", racing])
        self.ends(Status.DONE, ["check", racing])
        self.ends(Status.WARNING, ["check", "--strict", racing])

    def test_no_ped(self) -> None:
        self.ends(Status.NO_PED, ["loops", RECURRENCE, "--ped", "/nowhere/ped"], "cannot start /nowhere/ped: ")
        self.ends(Status.NO_PED, ["loops", RECURRENCE], "cannot start /nowhere/ped: ", PEDX_PED="/nowhere/ped")
        self.ends(Status.NO_PED, ["loops", RECURRENCE, "--ped", self.fake("x", 71)], "ended with status 71: ped: x")

    def test_statuses_of_ped(self) -> None:
        self.ends(Status.NO_MEMORY, ["loops", RECURRENCE, "--ped", self.fake("", 6)], "out of memory")
        fake = self.fake("program is longer than 1048576 bytes", 7)
        words = ["loops", RECURRENCE, "--profile", "--ped", fake]
        self.ends(Status.TOO_LONG, words, "the program is longer than 1048576 bytes")
        self.ends(Status.NOT_UNDERSTOOD, ["loops", RECURRENCE, "--ped", self.fake("refused x", 5)], "isn't understood")
        fake = self.fake("refused 99 NewRefusal at 3", 5)
        words = ["loops", RECURRENCE, "--profile", "--ped", fake]
        self.ends(Status.PROGRAM_REFUSED, words, f"{RECURRENCE}:3:7: error: 99 NewRefusal\n")

    def test_link(self) -> None:
        """Through a link the companion finds its modules, and ped beside itself."""
        link = Path(self.folder, "link")
        link.symlink_to(TOP / "pedx")
        done = subprocess.run([str(link), "--help"], stdout=subprocess.PIPE, check=False)
        self.assertEqual(done.returncode, Status.DONE)


if __name__ == "__main__":
    unittest.main()
