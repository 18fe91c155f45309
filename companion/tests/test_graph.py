"""`pedx graph`: the text for graphviz, and the call of dot."""

import os
import tempfile
import unittest
from pathlib import Path
from unittest.mock import patch

from ..commands.graph import graph
from ..statuses import CompanionError, Status
from .support import example_view, examples, fortran, view_of


class Graph(unittest.TestCase):
    def test_loop(self) -> None:
        view = view_of(fortran(
            "INTEGER A(99), L(99)", "DO 10 I = 2, 9", "DO 10 J = 2, 9", "A(L(J)) = I", "10 K = A(J)", "END"
        ))
        lines = graph(view, 2, svg=False).splitlines()
        self.assertEqual(lines[0], 'digraph "p.f: loop 2, DO J" {')
        self.assertEqual(lines[-1], "}")
        self.assertIn('  3 [label="3: A(L(J)) = I"];', lines)
        self.assertIn('  3 -> 3 [label="A output 2", color=red, style=dashed];', lines)
        self.assertIn('  3 -> 4 [label="A flow", color=black, style=dashed];', lines)
        self.assertIn('  4 -> 4 [label="K output 2", color=red, style=solid];', lines)
        outer = graph(view, 1, svg=False).splitlines()
        self.assertIn("  subgraph cluster_2 {", outer)
        self.assertIn('  4 -> 4 [label="K output 1", color=red, style=solid];', outer)
        self.assertIn('  4 -> 4 [label="K output 2", color=blue, style=solid];', outer)

    def test_rejected_and_many(self) -> None:
        lines = graph(example_view("panes/seidel"), 6, svg=False).splitlines()
        self.assertIn('  9 -> 9 [label="HEAT anti 1 x4", color=red, style=solid];', lines)
        lines = graph(example_view("panes/chains"), 11, svg=False).splitlines()
        self.assertIn('  13 -> 13 [label="Z anti 1 x2", color=red, style=dotted];', lines)

    def test_whole_programs(self) -> None:
        for name in examples():
            text = graph(example_view(name), None, svg=False)
            self.assertEqual(text.count("{"), text.count("}"), name)
            self.assertEqual(text.count("subgraph"), len(example_view(name).program.loops), name)

    def test_quotes(self) -> None:
        view = view_of(fortran("INTEGER A(9)", "DO 10 I = 1, 2", "PRINT *, 'A\"\\'", "10 A(I) = 1", "END"))
        self.assertIn('[label="2: PRINT *, \'A\\"\\\\\'"]', graph(view, 1, svg=False))


class Drawn(unittest.TestCase):
    def drawn(self, dot: str) -> str:
        """What is answered where the command `dot` is this script."""
        with tempfile.TemporaryDirectory(prefix="pedx-test-") as folder:
            if dot:
                Path(folder, "dot").write_text(dot)
                Path(folder, "dot").chmod(0o755)
            with patch.dict(os.environ, PATH=f"{folder}:/usr/bin:/bin" if dot else folder):
                return graph(example_view("steps/squares"), 3, svg=True)

    def test_drawn(self) -> None:
        answer = self.drawn('#!/bin/sh\necho "$@"\ncat\n')
        self.assertTrue(answer.startswith("-Tsvg\ndigraph "), answer)

    def test_no_dot(self) -> None:
        for dot in ("", "#!/bin/sh\ncat >/dev/null\nexit 3\n"):
            with self.assertRaises(CompanionError) as caught:
                self.drawn(dot)
            self.assertIs(caught.exception.status, Status.NO_DOT)


if __name__ == "__main__":
    unittest.main()
