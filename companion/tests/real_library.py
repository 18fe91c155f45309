"""The library fparser: how it's found, what is said where it's missing, and what is changed in it."""

import logging
import os
import subprocess
import sys
import tempfile
import unittest
from pathlib import Path
from typing import Dict, List

from ..real.library import DEBIAN, FOLDER_VARIABLE, MISSING, VERSION, statement_classes
from .support import TOP

_ASK = """
import sys
from companion.real import library
{}
try:
    classes = library.statement_classes()
except library.LibraryMissing as error:
    print("missing", error)
else:
    import fparser
    print("found", fparser.__file__, sys.path[-1])
"""


def ask(change: str, environment: Dict[str, str], *options: str) -> List[str]:
    """What a new interpreter says of the library; `change` is run before it's looked for."""
    variables = {name: value for name, value in os.environ.items() if name != FOLDER_VARIABLE}
    result = subprocess.run(
        [sys.executable, *options, "-c", _ASK.format(change)], cwd=TOP, env={**variables, **environment}, check=True,
        stdout=subprocess.PIPE, universal_newlines=True,
    )
    return result.stdout.split()


class Finding(unittest.TestCase):
    def test_version(self) -> None:
        self.assertIsNone(statement_classes().note)
        self.assertEqual(VERSION, "0.0.16")

    def test_folder_of_debian_is_last_on_the_path(self) -> None:
        change = f"sys.path[:] = [path for path in sys.path if path != {DEBIAN!r}]"
        found = ask(change, {})
        if found[0] == "found" and found[1].startswith(DEBIAN):
            self.assertEqual(found[2], DEBIAN)

    def test_folder_of_the_environment(self) -> None:
        package = Path(sys.modules["fparser"].__file__ or "").parent
        with tempfile.TemporaryDirectory() as folder:
            os.symlink(package, Path(folder) / "fparser")
            # No other folder has it: neither the installed packages nor Debian's.
            change = "library.DEBIAN = '/nowhere'\nsys.path[:] = [p for p in sys.path if 'packages' not in p]"
            found = ask(change, {FOLDER_VARIABLE: folder})
        self.assertEqual((found[0], Path(found[1]).parent.parent), ("found", Path(folder)))

    def test_missing(self) -> None:
        change = "library.DEBIAN = '/nowhere'\nsys.path[:] = [p for p in sys.path if 'packages' not in p]"
        self.assertEqual(" ".join(ask(change, {})), f"missing {MISSING}")
        self.assertIn("python3-fparser", MISSING)
        self.assertIn(FOLDER_VARIABLE, MISSING)

    def test_profile_side_does_without_it(self) -> None:
        code = "import sys, companion.command_line; sys.exit('fparser' in sys.modules)"
        subprocess.run([sys.executable, "-c", code], cwd=TOP, check=True)


class Prepared(unittest.TestCase):
    def test_messages_are_kept_from_the_user(self) -> None:
        statement_classes()
        self.assertFalse(logging.getLogger("fparser").propagate)
        self.assertEqual(logging.root.manager.disable, 0)

    def test_classes_are_prepared_once(self) -> None:
        self.assertIs(statement_classes(), statement_classes())

    def test_no_intrinsic_is_a_class_of_its_own(self) -> None:
        standard = statement_classes().standard
        for name in ("Primary", "Level_1_Expr"):
            self.assertNotIn(standard.Intrinsic_Function_Reference, standard.Base.subclasses[name])

    def test_later_classes_come_first(self) -> None:
        classes = statement_classes()
        self.assertIs(classes.named("If_Stmt"), classes.later.If_Stmt)
        self.assertIs(classes.named("Goto_Stmt"), classes.standard.Goto_Stmt)
