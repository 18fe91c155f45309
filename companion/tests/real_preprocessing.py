"""Conditions of the preprocessor that --define and --undefine decide. All was reasoned by hand."""

from __future__ import annotations

import unittest
from typing import List, Sequence, Tuple

from ..real.preprocessing import BadDefinition, Macros, macros
from ..real.source import read_source

_NESTED = """#ifdef A
one
#if B > 1
two
#else
three
#endif
#elif defined(B) && !defined(C)
four
#else
five
#endif
six
"""


def kept(text: str, *defines: str, undefines: Sequence[str] = ()) -> Tuple[List[str], List[str]]:
    """The lines that are read, and what the marks say."""
    source = read_source(text, "free", macros=macros(defines, undefines))
    assert len(source.layout) == len(source.lines)
    return [line for line in source.layout if line], [mark.text for mark in source.marks]


class Branches(unittest.TestCase):
    def test_branches(self) -> None:
        self.assertEqual(kept(_NESTED, "A", "B=2"), (["one", "two", "six"], []))
        self.assertEqual(kept(_NESTED, "A", "B"), (["one", "three", "six"], []))
        self.assertEqual(kept(_NESTED, "B", undefines=["A", "C"]), (["four", "six"], []))
        self.assertEqual(kept(_NESTED, "B", "C", undefines=["A"]), (["five", "six"], []))
        self.assertEqual(kept(_NESTED, undefines=["A", "B"]), (["five", "six"], []))

    def test_what_is_not_decided_is_marked(self) -> None:
        self.assertEqual(kept(_NESTED)[1], ["#ifdef A"])
        self.assertEqual(kept(_NESTED, "B")[1], ["#ifdef A"])
        self.assertEqual(kept(_NESTED, "A"), (["one", "two", "three", "six"], ["#if B > 1"]))
        self.assertEqual(kept(_NESTED, "B", undefines=["A"])[1], ["#elif defined(B) && !defined(C)"])

    def test_without_definitions_nothing_is_certain(self) -> None:
        self.assertEqual(kept("#if 0\none\n#endif\n"), (["one"], ["#if 0"]))
        self.assertEqual(kept("#if 0\none\n#endif\n", "A"), ([], []))

    def test_what_is_left_out_is_not_looked_at(self) -> None:
        inner = "#ifdef A\n#if D\none\n#else\ntwo\n#endif\n#define B\n#include \"x\"\n#endif\nthree\n"
        self.assertEqual(kept(inner, undefines=["A"]), (["three"], []))

    def test_what_is_there_may_define_names(self) -> None:
        self.assertEqual(kept("#ifdef A\n#define B\n#endif\nthree\n", "A"), (["three"], ["#define B"]))

    def test_lines_of_fixed_form(self) -> None:
        text = "      X = 1\n#ifdef A\n     & + 2\n#else\n     & + 3\n#endif\n     & + 4\n"
        source = read_source(text, "fixed", macros=macros(["A"]))
        lines = [line.rstrip("\ue001") for line in source.layout]
        self.assertEqual(lines, ["      X = 1", "", "     & + 2", "", "", "", "     & + 4"])

    def test_a_defined_name_in_the_text(self) -> None:
        self.assertEqual(kept("X = A + a ! A\nY = B\n", "A", undefines=["B"])[1], ["A, which --define replaces"])
        self.assertEqual(kept("X = 1 ! A\n", "A")[1], [])

    def test_flags(self) -> None:
        self.assertEqual(macros(["A", "B=2"], ["C"]).flags, ["-cpp", "-DA", "-DB=2", "-UC"])
        self.assertEqual(Macros().flags, [])

    def test_bad_definitions(self) -> None:
        wrong: List[Tuple[List[str], List[str]]] = [(["1"], []), (["A"], ["A"]), ([], ["A B"]), (["=2"], [])]
        for defines, undefines in wrong:
            with self.assertRaises(BadDefinition):
                macros(defines, undefines)


class Conditions(unittest.TestCase):
    def _value(self, condition: str, *defines: str) -> str:
        found, marks = kept(f"#if {condition}\nyes\n#else\nno\n#endif\n", *defines, undefines=["U"])
        return "open" if marks else found[0]

    def test_conditions(self) -> None:
        for condition, wanted in {
            "1": "yes", "0": "no", "U": "no", "A": "yes", "A == 3": "yes", "A*2 - 1 > 4 && A % 2": "yes",
            "defined A": "yes", "!defined(U)": "yes", "X": "open", "X || 1": "yes", "X && 0": "no", "!X": "open",
            "defined(X)": "open", "X > 2 || defined(A)": "yes", "(A < 3) || U": "no", "T == 1": "open", "defined(T)": "yes",
            "A(1)": "open", "1 +": "open", "010 == 8": "yes", "A /* B */ != 3": "no", "-A < 0 // word": "yes", "1/U": "open",
            "'a' == 1": "open", "A ? 1 : 0": "open",
        }.items():
            self.assertEqual(self._value(condition, "A=3", "T=REAL"), wanted, condition)

    def test_lines_that_go_on(self) -> None:
        self.assertEqual(kept("#if defined(A) && \\\n  defined(B)\none\n#endif\n", "A", "B"), (["one"], []))


if __name__ == "__main__":
    unittest.main()
