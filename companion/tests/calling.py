"""Calls of pedx, as the tests make them."""

from __future__ import annotations

import os
import shutil
import subprocess
import sys
import tempfile
import unittest
from dataclasses import dataclass
from io import BytesIO, TextIOWrapper
from pathlib import Path
from typing import Dict, List, Optional

from ..command_line import main
from ..statuses import Status
from .support import TOP, ped_path

_FAKE_PED = """\
#!/bin/sh
echo 'ped: {said}'
exit {status}
"""


class Calling(unittest.TestCase):
    """A test with a folder of its own, which calls pedx."""

    def setUp(self) -> None:
        self.folder = tempfile.mkdtemp(prefix="pedx-test-")
        self.addCleanup(shutil.rmtree, self.folder)

    def file(self, name: str, text: str) -> str:
        """A file in the folder of the test."""
        path = Path(self.folder, name)
        path.write_text(text)
        return str(path)

    def call(self, *words: str, environment: Optional[Dict[str, str]] = None) -> "subprocess.CompletedProcess[str]":
        """A call at the repository's top."""
        return subprocess.run(
            [sys.executable, str(TOP / "pedx"), *words], cwd=TOP, stdin=subprocess.DEVNULL, stdout=subprocess.PIPE,
            stderr=subprocess.PIPE, universal_newlines=True, check=False,
            env={**os.environ, "PEDX_PED": ped_path(), **(environment or {})},
        )

    def ends(self, status: Status, words: List[str], said: str = "", **environment: str) -> str:
        """A call ends with a status and says something of it; what it prints."""
        done = self.call(*words, environment=environment)
        self.assertEqual(done.returncode, status, done.stderr)
        self.assertIn(said, done.stderr)
        return done.stdout

    def fake(self, said: str, status: int) -> str:
        """A program that says something and ends with a status."""
        path = self.file("ped", _FAKE_PED.format(said=said, status=status))
        os.chmod(path, 0o755)
        return path


@dataclass(frozen=True)
class Done:
    """How a call inside the tests' own process has ended."""

    returncode: int
    stdout: str
    stderr: str


class CallingInside(Calling):
    """A test whose calls of pedx are made in its own process, so that libraries are loaded but once."""

    def call(self, *words: str, environment: Optional[Dict[str, str]] = None) -> "Done":  # type: ignore[override]
        """A call at the repository's top."""
        streams = [TextIOWrapper(BytesIO(), "latin-1", newline="") for _ in range(2)]
        before, folder = (sys.stdout, sys.stderr), os.getcwd()
        names = {"PEDX_PED": ped_path(), **(environment or {})}
        known = {name: os.environ.get(name) for name in names}
        try:
            os.chdir(TOP)
            os.environ.update(names)
            sys.stdout, sys.stderr = streams
            try:
                status = main(list(words))
            except SystemExit as error:
                status = int(error.code or 0)
        finally:
            sys.stdout, sys.stderr = before
            os.chdir(folder)
            for name, value in known.items():
                if value is None:
                    del os.environ[name]
                else:
                    os.environ[name] = value
        return Done(status, *(stream.buffer.getvalue().decode("latin-1") for stream in streams))  # type: ignore
