"""`pedx json`: the document, and that it says what docs/COMPANION.md says of it."""

import json
import re
import unittest
from typing import Any, Dict

from ..commands.export import export
from ..ped import ENCODING
from .support import TOP, example_view, examples, view_of


def document(text: str) -> Dict[str, Any]:
    return json.loads(export(view_of(text)))


class Export(unittest.TestCase):
    def test_document(self) -> None:
        said = document(
            "      PROGRAM P\n      PARAMETER (N=9)\n      INTEGER A(0:N)\n      SAVE\n"
            "C$PED REJECT A\n      parallel do 10 i = 1, n, 2\n      private k\n      k = a(i-1)\n   10 a(i) = k\n"
            "      END\n"
        )
        self.assertEqual((said["schema"], said["file"], said["program"]), (1, "p.f", "P"))
        self.assertEqual((said["constants"], said["arrays"], said["saved"]), ({"N": 9}, {"A": ["0:N"]}, ["A", "K"]))
        self.assertEqual(said["source"][3], {"line": 4, "statement": None, "text": "      SAVE A, K"})
        self.assertEqual(said["statements"][1], {
            "number": 2, "kind": "assignment", "line": 8, "printed_line": 8, "loops": [1], "ifs": [],
        })
        self.assertEqual(said["loops"], [{
            "statement": 1, "variable": "I", "level": 1, "last_statement": 3, "parallel": True, "initial": "1",
            "limit": "N", "increment": 2, "private": ["K"], "rejected": ["A"], "carries": [],
        }])
        self.assertEqual(said["references"][1], {
            "statement": 2, "number": 1, "name": "A", "writes": False, "text": "A(I-1)", "subscripts": ["I-1"],
            "start": [8, 11], "end": [8, 16],
        })
        self.assertEqual([(one["source"], one["sink"], one["loop"]) for one in said["dependences"]], [
            ([2, 2], [3, 1], None)
        ])

    def test_comments_in_other_scripts(self) -> None:
        utf8 = "C Gr\u00fc\u00dfe\n      END\n".encode("utf-8").decode(ENCODING)
        self.assertEqual(document(utf8)["source"][0]["text"], "C Gr\u00fc\u00dfe")
        self.assertEqual(document("C \xfc\n      END\n")["source"][0]["text"], "C \xfc")

    def test_examples(self) -> None:
        for name in examples():
            said = json.loads(export(example_view(name)))
            self.assertEqual(len(said["dependences"]), len(example_view(name).dependences))
            for loop in said["loops"]:
                for index in loop["carries"]:
                    self.assertEqual(said["dependences"][index]["loop"], loop["statement"])

    def test_schema(self) -> None:
        """The manual's tables name exactly the keys of the document."""
        page = (TOP / "docs" / "COMPANION.md").read_text()
        schema = page[page.index("### The schema"):page.index("## Real Fortran")]
        named = set()
        for keys_of_row, value in re.findall(r"^\| (`[^|]+) \| ([^|]+) \|", schema, re.MULTILINE):
            also = value[value.index("objects with"):] if "objects with" in value else ""
            named |= set(re.findall(r"`(\w+)`", keys_of_row + also))
        said = json.loads(export(example_view("panes/chains")))
        keys = set(said)
        for value in said.values():
            if isinstance(value, list) and value and isinstance(value[0], dict):
                keys |= set(value[0])
        self.assertEqual(named, keys)


if __name__ == "__main__":
    unittest.main()
