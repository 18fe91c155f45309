"""The extension for VS Code: its client and its providers, in node with a stub of the module `vscode`, over a real server."""

import json
import re
import shutil
import subprocess
import sys
import tempfile
import unittest
import zipfile
from pathlib import Path
from xml.etree import ElementTree

from .. import VERSION
from .support import TOP
from .test_serve import RECURRENCE, command

_FOLDER = TOP / "editors" / "vscode"
_DRIVE = TOP / "companion" / "tests" / "vscode" / "drive.js"


class Extension(unittest.TestCase):
    @unittest.skipUnless(shutil.which("node"), "the package nodejs is not installed")
    def test_end_to_end(self) -> None:
        """Diagnostics, verdicts, why, a step, an export, and a server that can't be started."""
        done = subprocess.run(
            ["node", str(_DRIVE), str(_FOLDER), json.dumps(command()), RECURRENCE], capture_output=True, timeout=300, check=False,
        )
        self.assertEqual(done.stderr.decode(), "")
        told = json.loads(done.stdout)
        self.assertEqual(told["before"], 0)
        self.assertEqual(told["lenses"], ["1: carries A", "4: carries K"])
        self.assertIn("flow of A from 2.2 to 2.1, carried by loop 1 (DO I), proven", told["hover"])
        self.assertIsNone(told["nothing"])
        self.assertIn("ped: expand 3 K", told["actions"])
        self.assertNotIn("ped: parallel 3", told["actions"])
        self.assertIn("        PRIVATE K\n", told["text"])
        self.assertEqual(list(told["created"]), ["file:///p.omp.f"])
        self.assertIn("C     WRITTEN BY PEDX OMP", told["created"]["file:///p.omp.f"])
        self.assertEqual(told["after"], [["7 Syntax", 0, 1, "ped"]])
        self.assertTrue(told["fired"])
        self.assertIn("shown file:///p.omp.f", told["said"])
        self.assertIn("pedx: file:///p.omp.f is there already", told["said"])
        self.assertIn("/nowhere/pedx can't be started", told["said"][-1])
        self.assertEqual(told["gone"], [])

    def test_its_description(self) -> None:
        """What the extension names of itself is there, and nothing has to be installed with it."""
        about = json.loads((_FOLDER / "package.json").read_text(encoding="utf-8"))
        self.assertEqual(about["version"], VERSION)
        self.assertTrue((_FOLDER / about["main"]).is_file())
        self.assertNotIn("dependencies", about)
        text = (_FOLDER / "extension.js").read_text(encoding="utf-8")
        for one in about["contributes"]["commands"]:
            self.assertIn(f"'{one['command']}'", text)
        task = json.loads((_FOLDER / "tasks.json").read_text(encoding="utf-8"))["tasks"][0]
        self.assertEqual(about["contributes"]["problemMatchers"][0]["pattern"], task["problemMatcher"]["pattern"])

    def test_package(self) -> None:
        """The package has each file that the extension asks for, and a manifest that is XML."""
        with tempfile.TemporaryDirectory() as folder:
            path = Path(folder) / "pedx.vsix"
            subprocess.run([sys.executable, "-B", str(_FOLDER / "pack.py"), str(path)], check=True)
            with zipfile.ZipFile(path) as package:
                texts = {name: package.read(name).decode("utf-8") for name in package.namelist()}
        asked = re.findall(r"require\('\./(\w+)'\)", texts["extension/extension.js"])
        self.assertEqual(set(texts), {
            "extension.vsixmanifest", "[Content_Types].xml", "extension/package.json", "extension/extension.js",
            *(f"extension/{name}.js" for name in asked),
        })
        ElementTree.fromstring(texts["[Content_Types].xml"])
        identity = ElementTree.fromstring(texts["extension.vsixmanifest"])[0][0]
        self.assertEqual((identity.get("Id"), identity.get("Version"), identity.get("Publisher")), ("pedx", VERSION, "ped"))


if __name__ == "__main__":
    unittest.main()
