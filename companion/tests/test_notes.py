"""What the launcher says on standard error, as a user of pedx sees it."""

from __future__ import annotations

import os
import shlex
import subprocess
import sys
import tempfile
import unittest
from pathlib import Path
from typing import Dict, List

from .support import TOP, ped_path

_NOTE = "ped: this program isn't proved yet"

#: A launcher of an unproved program: it notes each call, and says what it starts unless the caller knows.
_LAUNCHER = """#!/bin/sh
echo call >>{calls}
[ -n "$PED_KNOWN_UNPROVED" ] || echo "{note}, so what it prints is only tested; ./prove proves it" >&2
exec {ped} "$@"
"""


class Notes(unittest.TestCase):
    """The note on an unproved build comes once in a call of pedx, however often that calls ped."""

    def setUp(self) -> None:
        self._folder = tempfile.TemporaryDirectory()
        self.addCleanup(self._folder.cleanup)
        self._calls = Path(self._folder.name, "calls")
        self._launcher = Path(self._folder.name, "ped")
        words = {"calls": shlex.quote(str(self._calls)), "ped": shlex.quote(os.path.abspath(ped_path())), "note": _NOTE}
        self._launcher.write_text(_LAUNCHER.format(**words))
        self._launcher.chmod(0o755)

    def _answer(self, words: List[str], more: Dict[str, str]) -> List[str]:
        """The lines on standard error of a call of pedx."""
        kept = {name: value for name, value in os.environ.items() if name != "PED_KNOWN_UNPROVED"}
        done = subprocess.run(
            [sys.executable, str(TOP / "pedx"), *words], stdin=subprocess.DEVNULL, capture_output=True, check=True,
            env={**kept, "PEDX_PED": str(self._launcher), **more},
        )
        return done.stderr.decode().splitlines()

    def test_it_comes_once(self) -> None:
        messages = self._answer(["loops", str(TOP / "examples/steps/squares.f")], {})
        self.assertGreater(len(self._calls.read_text().splitlines()), 1)
        self.assertEqual([line.startswith(_NOTE) for line in messages], [True])

    def test_it_comes_in_each_call_of_pedx(self) -> None:
        words = ["json", str(TOP / "examples/panes/recurrence.f")]
        for _ in range(2):
            self.assertEqual([line.startswith(_NOTE) for line in self._answer(words, {})], [True])

    def test_who_knows_it_is_not_told(self) -> None:
        words = ["loops", str(TOP / "examples/steps/squares.f")]
        self.assertEqual(self._answer(words, {"PED_KNOWN_UNPROVED": "1"}), [])
