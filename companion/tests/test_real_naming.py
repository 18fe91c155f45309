"""Names of models: they are names of the profile, no two meet, and they lead back."""

import unittest

from ..lines import split_lines
from ..program import read_program
from ..real.naming import OPAQUE, WORDS, Naming, is_profile_name
from .support import fortran, view_of


class Names(unittest.TestCase):
    def test_what_stays(self) -> None:
        for name in ("A", "X9", "A" * 31, "DOX", "IFX", "SAVED", "PARAMETERS", "KX", "K1", "K1Y", "OPQX", "THENX"):
            self.assertTrue(is_profile_name(name), name)
            self.assertEqual(Naming().name(name), name)

    def test_what_does_not_stay(self) -> None:
        words = ("IF", "MAX", "DO", "PRIVATE", "END")
        for name in ("A_B", "_A", "A$", "A" * 32, *words, "K1X", "K12X", OPAQUE, "OPQ1", "A%X"):
            self.assertFalse(is_profile_name(name), name)
            self.assertRegex(Naming().name(name), r"\AK[0-9]+X\Z")

    def test_no_two_meet(self) -> None:
        naming = Naming()
        keys = ["A_B", "K1X", "K2X", "IF", "A", "N/2", "K3X", "A_B", "N/2"]
        names = [naming.name(key) for key in keys]
        self.assertEqual(len(set(names)), 7)
        self.assertEqual((names[0], names[5]), (names[7], names[8]))
        self.assertEqual([naming.key(name) for name in names], keys)
        self.assertNotIn(naming.fresh(), names)
        self.assertNotEqual(naming.fresh(), naming.fresh())

    def test_own_names_are_not_the_users(self) -> None:
        naming = Naming()
        own = naming.fresh()
        self.assertEqual(naming.key(own), own)
        self.assertFalse(naming.is_users(own) or naming.is_users(OPAQUE))
        self.assertTrue(naming.is_users(naming.name("A_B")))

    def test_texts(self) -> None:
        naming = Naming()
        name, half = naming.name("N_MAX"), naming.name("N/2")
        naming.name("I")
        self.assertEqual(naming.put_back(f"I+{name} against I-{half}, I{name}"), f"I+N_MAX against I-(N/2), I{name}")


class Profile(unittest.TestCase):
    """Whatever begins with a word of the profile is a name in ped, too, in all statements of a model."""

    def test_names_that_begin_with_words(self) -> None:
        names = sorted(f"{word}Q" for word in WORDS)
        self.assertTrue(all(is_profile_name(name) for name in names))
        lines = ["IMPLICIT INTEGER (A-Z)", *(f"INTEGER {name}(1)" for name in names), "DO I = 1, N"]
        for name in names:
            lines += [f"{name}(I) = {name}(I)+MAX(I,2)", f"IF ({name}(I).NE.0) THEN", "END IF"]
        source = fortran(*lines, "END DO", "END")
        self.assertEqual(set(view_of(source).printed.arrays), set(names))
        self.assertEqual(set(read_program(split_lines(source)).arrays), set(names))

    def test_scalars_that_begin_with_words(self) -> None:
        names = sorted(f"{word}Q" for word in WORDS)
        lines = ["IMPLICIT INTEGER (A-Z)", *(f"SAVE {name}" for name in names), "DO I = 1, N"]
        for name in names:
            lines += [f"DO {name} = 0, N", f"X = {name}", "END DO", f"{name} = MAX(I,{name})"]
        program = read_program(split_lines(fortran(*lines, "END DO", "END")))
        self.assertEqual({loop.variable for loop in program.loops.values()} - {"I"}, set(names))
        view_of(fortran(*lines, "END DO", "END"))


if __name__ == "__main__":
    unittest.main()
