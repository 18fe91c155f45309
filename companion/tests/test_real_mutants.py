"""The edits that have to make tests fail: each applies to the present text. tools/real-mutants.py runs them."""

import ast
import importlib
import unittest

from .mutants import FOLDER, mutants


class Mutants(unittest.TestCase):
    def test_there_are_enough(self) -> None:
        found = mutants()
        self.assertGreaterEqual(len(found), 60)
        self.assertEqual(len({(one.file, one.old, one.new) for one in found}), len(found))

    def test_each_applies_once_and_is_a_program(self) -> None:
        for one in mutants():
            with self.subTest(one.words):
                text = (FOLDER / one.file).read_text()
                edited = one.applied(text)
                self.assertNotEqual(edited, text)
                ast.parse(edited)

    def test_their_tests_are_there(self) -> None:
        for one in mutants():
            self.assertTrue(one.tests, one.words)
            for test in one.tests:
                module, *names = test.split(".")
                found: object = importlib.import_module(f"companion.tests.{module}")
                for name in names:
                    found = getattr(found, name)


if __name__ == "__main__":
    unittest.main()
