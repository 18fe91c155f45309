"""The assumptions: which are granted by default, and what users may say of them."""

import unittest

from ..real.assumptions import ALWAYS, ASSUMPTIONS, NoAssumption, assumption, cited, granted, in_order


class Assumptions(unittest.TestCase):
    def test_there_are_thirteen(self) -> None:
        self.assertEqual(list(ASSUMPTIONS), [f"A{number}" for number in range(1, 14)])
        self.assertEqual(ALWAYS, {"A3", "A12"})
        for one in ASSUMPTIONS.values():
            self.assertTrue(one.words.endswith(".") and one.summary and one.cited)

    def test_what_is_granted(self) -> None:
        refused = {"A7", "A8", "A13"}
        self.assertEqual(granted(), set(ASSUMPTIONS) - refused)
        self.assertEqual(granted(["A8"]), set(ASSUMPTIONS) - {"A7", "A13"})
        self.assertEqual(granted([], ["A2", "a12"]), set(ASSUMPTIONS) - refused - {"A2", "A12"})
        self.assertEqual(granted(exact=True), set(ASSUMPTIONS) - refused - {"A9"})
        self.assertEqual(granted(["7", "A08", "a13"]), set(ASSUMPTIONS))
        # What is granted already may be assumed, and what isn't may be denied.
        self.assertEqual(granted(["A1"], ["A7"]), granted())

    def test_words_that_name_none(self) -> None:
        for word in ("A0", "A14", "B1", "", "A", "A1B", "-1"):
            with self.assertRaises(NoAssumption):
                assumption(word)
        for call in (lambda: granted(["A9"], exact=True), lambda: granted(["A1"], ["1"])):
            with self.assertRaises(NoAssumption):
                call()

    def test_lists(self) -> None:
        self.assertEqual(in_order(["A12", "A3", "A1"]), ["A1", "A3", "A12"])
        self.assertEqual(cited({"A12", "A3", "A1"}), "A1 no other name for what is changed; A3 32 bits; A12 no errors")


if __name__ == "__main__":
    unittest.main()
