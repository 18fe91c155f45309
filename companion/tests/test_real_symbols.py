"""Symbols: what names stand for follows from the Fortran standard."""

import unittest
from typing import Optional, Sequence

from ..real import tree, units
from ..real.constants import Integer
from ..real.symbols import Scopes, Storage, Symbols
from .real_trees import (
    Said, array, attribute, block, declare, expression, operation, parameter, procedure, reference, unit, written,
)

DOUBLE = tree.TypeSpec("DOUBLE PRECISION")
INTEGER8 = tree.TypeSpec("INTEGER", bytes=8)


def symbols(made: units.Unit, *others: units.Unit) -> Symbols:
    """The symbols of a unit among others."""
    return Scopes([made, *others]).of(made)


def module(name: str, *specification: Said, contained: Sequence[units.Unit] = ()) -> units.Unit:
    return unit(tree.Head("MODULE", name), *specification, contained=contained)


def use(name: str, *names: str, only: bool = True, intrinsic: bool = False) -> tree.Use:
    """A USE; `A=B` renames."""
    pairs = tuple((local, original or local) for local, _, original in (one.partition("=") for one in names))
    return tree.Use(name, only and bool(names), pairs, intrinsic)


def equivalence(*names: str) -> Said:
    return " ".join(names), tree.Equivalence((tuple(expression(name) for name in names),))


def common(block_name: str, *names: str) -> Said:
    return " ".join(names), tree.Common(((block_name, tuple(tree.Entity(name) for name in names)),))


class Types(unittest.TestCase):
    def test_without_declarations(self) -> None:
        found = symbols(procedure("S"))
        for name in ("I", "N9", "A", "H", "O", "Z"):
            wanted = "INTEGER" if name[0] in "IN" else "REAL"
            self.assertEqual((found.get(name).type, found.get(name).kind), (wanted, 4))
            self.assertIs(found.get(name).storage, Storage.LOCAL)

    def test_implicit(self) -> None:
        double = tree.TypeSpec("REAL", bytes=8)
        rule = tree.Implicit(((double, frozenset("ABCDEFGHOPQRSTUVWXYZ")), (INTEGER8, frozenset("I"))))
        found = symbols(procedure("S", rule))
        self.assertEqual((found.get("X").type, found.get("X").kind), ("REAL", 8))
        self.assertEqual((found.get("I").type, found.get("I").kind), ("INTEGER", 8))
        self.assertEqual((found.get("J").type, found.get("J").kind), ("INTEGER", 4))

    def test_implicit_none(self) -> None:
        found = symbols(procedure("S", tree.Implicit(None), declare("REAL", "X")))
        self.assertIs(found.get("X").storage, Storage.LOCAL)
        self.assertEqual((found.get("Y").type, found.get("Y").storage), ("", Storage.UNKNOWN))

    def test_contained_procedures_take_the_rules_of_their_host(self) -> None:
        inner = procedure("T", tree.Implicit(((DOUBLE, frozenset("A")),)))
        symbols_ = Scopes([procedure("S", tree.Implicit(((INTEGER8, frozenset("AB")),)), contained=[inner])]).of(inner)
        self.assertEqual(symbols_.get("A1").type, "REAL")
        self.assertEqual((symbols_.get("B1").type, symbols_.get("B1").kind), ("INTEGER", 8))

    def test_integers_of_8_bytes(self) -> None:
        found = symbols(procedure(
            "S", parameter("LONG", expression(8)), declare(INTEGER8, "A"),
            declare("INTEGER", tree.Entity("B", length=expression(8))),
            declare(tree.TypeSpec("INTEGER", kind=expression("LONG")), "C"),
            declare(tree.TypeSpec("INTEGER", kind=expression("OTHER")), "D"),
            declare(tree.TypeSpec("INTEGER", kind=reference("SELECTED_INT_KIND", 12)), "E"),
        ))
        self.assertEqual([found.get(name).kind for name in "ABCDE"], [8, 8, 8, None, 8])

    def test_kinds_of_other_types(self) -> None:
        found = symbols(procedure(
            "S", declare("INTEGER", tree.Entity("DP", initial=reference("KIND", tree.Literal("REAL", "1.0D0"))),
                         attributes=["PARAMETER"]),
            declare(tree.TypeSpec("REAL", kind=expression("DP")), "X"), declare(DOUBLE, "Y"),
            declare("CHARACTER", tree.Entity("C", length=expression(8))),
        ))
        self.assertEqual([(found.get(name).type, found.get(name).kind) for name in "XYC"], [
            ("REAL", 8), ("REAL", 8), ("CHARACTER", 1),
        ])

    def test_a_kind_that_asks_for_itself_is_not_known(self) -> None:
        found = symbols(procedure("S", declare(tree.TypeSpec("INTEGER", kind=reference("KIND", "N")), "N")))
        self.assertIsNone(found.get("N").kind)


class Bounds(unittest.TestCase):
    def test_bounds(self) -> None:
        found = symbols(procedure(
            "S", parameter("N", operation("+", 5, 5)), attribute("DIMENSION", array("A", "N", "M")),
            declare("REAL", "A"),
            declare("REAL", array("B", "*"), tree.Entity("C", (tree.Bound(expression(0), expression(9)),)),
                    array("D", ":")),
            arguments=["B", "D", "M"],
        ))
        self.assertEqual(found.get("A").extents, ((1, 10), (1, None)))
        self.assertEqual([found.get(name).extents for name in "BCD"], [((1, None),), ((0, 9),), ((1, None),)])
        self.assertEqual((found.get("A").rank, found.get("M").rank), (2, 0))

    def test_common_has_bounds(self) -> None:
        found = symbols(procedure("S", ("A", tree.Common((("C", (array("A", 3),)),)))))
        self.assertEqual((found.get("A").extents, found.get("A").block), (((1, 3),), "/C/"))


class Constants(unittest.TestCase):
    def test_values(self) -> None:
        found = symbols(procedure(
            "S", parameter("N", expression(3)), parameter("M", operation("*", "N", "N")),
            parameter("R", expression(3)), parameter("K", tree.Literal("REAL", "2.5")),
            parameter("L", operation("+", "L", 1)),
        ))
        self.assertEqual(found.value("N"), Integer(3, 4))
        self.assertEqual(found.value("M"), Integer(9, 4))
        # R is REAL, and so R/2 is 1.5; the value of K is 2, which isn't computed; L isn't a constant before itself.
        for name in "RKL":
            self.assertIsNone(found.value(name))
            self.assertIs(found.get(name).storage, Storage.CONSTANT)
        self.assertEqual(found.constant(operation("+", "M", 1)), 10)
        self.assertIsNone(found.constant(operation("+", "J", 1)))

    def test_enumerators(self) -> None:
        found = symbols(procedure(
            "S", tree.Word("ENUM"),
            tree.Enumerator((("RED", None), ("GREEN", expression(5)), ("BLUE", None))),
            tree.Enumerator((("GREY", None),)),
            tree.End("ENUM"), tree.Word("ENUM"), tree.Enumerator((("ONE", None),)), tree.End("ENUM"),
            declare("INTEGER", "X"),
        ))
        wanted = {"RED": 0, "GREEN": 5, "BLUE": 6, "GREY": 7, "ONE": 0}
        self.assertEqual({name: found.value(name) for name in wanted}, {n: Integer(v, 4) for n, v in wanted.items()})

    def test_array_constants_have_no_value(self) -> None:
        found = symbols(procedure("S", declare(
            "INTEGER", tree.Entity("N", (tree.Bound(None, expression(2)),), initial=expression(1)),
            attributes=["PARAMETER"]
        )))
        self.assertIsNone(found.value("N"))

    def test_intrinsic_modules(self) -> None:
        found = symbols(procedure(
            "S", use("ISO_FORTRAN_ENV", "WP=REAL64", "INT64", "OUTPUT_UNIT"), declare("INTEGER", "N"),
            declare(tree.TypeSpec("INTEGER", kind=expression("INT64")), "M"),
            declare(tree.TypeSpec("REAL", kind=expression("WP")), "X"),
        ))
        self.assertEqual((found.get("M").kind, found.get("X").kind), (8, 8))
        self.assertIs(found.get("OUTPUT_UNIT").storage, Storage.UNKNOWN)
        self.assertIs(found.get("A").storage, Storage.LOCAL)
        self.assertEqual(found.missing_modules, ())

    def test_a_module_of_the_user_with_the_name_of_an_intrinsic_one(self) -> None:
        own = module("ISO_FORTRAN_ENV", parameter("INT64", expression(4)))
        self.assertEqual(symbols(procedure("S", use("ISO_FORTRAN_ENV")), own).value("INT64"), Integer(4, 4))
        found = symbols(procedure("S", use("ISO_FORTRAN_ENV", "INT64", intrinsic=True)), own)
        self.assertEqual(found.value("INT64"), Integer(8, 4))


class Storages(unittest.TestCase):
    def test_dummies_and_results(self) -> None:
        made = unit(
            tree.Head("FUNCTION", "F", ("A", "B", "G"), type=DOUBLE), declare("REAL", "A", attributes=["INTENT(IN)"]),
            attribute("EXTERNAL", "G"), tree.Entry("E", ("C",)),
        )
        found = symbols(made)
        self.assertEqual([found.get(name).storage for name in "ABCF"], [Storage.DUMMY] * 3 + [Storage.RESULT])
        self.assertEqual((found.get("F").kind, found.get("E").storage), (8, Storage.RESULT))
        self.assertIs(found.get("G").storage, Storage.PROCEDURE)
        self.assertEqual([found.is_live_at_end(name) for name in "ABCFX"], [False, True, True, True, False])
        # The results of a function and of its ENTRYs share storage.
        self.assertEqual(found.get("F").group, found.get("E").group)
        self.assertNotEqual(found.get("F").group, "")

    def test_result_has_a_name(self) -> None:
        found = symbols(unit(tree.Head("FUNCTION", "F", (), result="R"), declare(DOUBLE, "R")))
        self.assertEqual((found.get("R").storage, found.get("R").kind), (Storage.RESULT, 8))
        self.assertIs(found.get("F").storage, Storage.PROCEDURE)

    def test_save(self) -> None:
        found = symbols(procedure(
            "S", attribute("SAVE", "A", "/C/"), common("C", "X"),
            declare("REAL", tree.Entity("B", initial=expression(1))),
            ("D", tree.Data(("D",))),
        ))
        for name in "ABD":
            self.assertIn("SAVE", found.get(name).attributes)
            self.assertTrue(found.is_live_at_end(name) and found.get(name).is_reached_by_calls)
        self.assertFalse(found.is_live_at_end("E") or found.get("E").is_reached_by_calls)
        self.assertTrue(found.is_live_at_end("X") and found.get("X").is_reached_by_calls)

    def test_save_of_all(self) -> None:
        found = symbols(procedure("S", attribute("SAVE"), declare("REAL", "A"), arguments=["D"]))
        self.assertIn("SAVE", found.get("A").attributes)
        self.assertIn("SAVE", found.get("NEVERDECLARED").attributes)
        self.assertNotIn("SAVE", found.get("D").attributes)

    def test_main_program(self) -> None:
        found = symbols(unit(tree.Head("PROGRAM", "P"), attribute("SAVE"), common("C", "X"), declare("REAL", "A")))
        self.assertFalse(found.is_live_at_end("A") or found.is_live_at_end("X"))

    def test_namelist_is_reached_by_input_and_output(self) -> None:
        found = symbols(procedure("S", ("G A", tree.Namelist((("G", ("A",)),))), declare("REAL", "A")))
        self.assertTrue(found.get("A").is_reached_by_calls)
        self.assertEqual(found.declarations.namelists, {"G": ("A",)})

    def test_pointers_and_targets(self) -> None:
        found = symbols(procedure(
            "S", declare("REAL", array("P", ":"), attributes=["POINTER"]), attribute("TARGET", "T"),
            declare("REAL", array("W", ":"), attributes=["ALLOCATABLE"]),
        ))
        self.assertEqual([found.get(name).is_pointer for name in "PTW"], [True, True, False])
        self.assertTrue(found.get("T").is_reached_by_calls and found.is_live_at_end("T"))

    def test_cray_pointers(self) -> None:
        found = symbols(procedure("S", ("Q B", tree.CrayPointers((("Q", array("B", 10)),))), declare("REAL", "B")))
        self.assertIn("CRAY POINTER", found.get("Q").attributes)
        self.assertEqual((found.get("Q").type, found.get("Q").kind), ("INTEGER", 8))
        self.assertIn("CRAY POINTEE", found.get("B").attributes)
        self.assertTrue(found.get("B").is_pointer)
        self.assertEqual(found.get("B").extents, ((1, 10),))

    def test_volatile_and_coarrays(self) -> None:
        found = symbols(procedure("S", attribute("VOLATILE", "V"), declare("REAL", tree.Entity("C", coarray=True))))
        self.assertIn("VOLATILE", found.get("V").attributes)
        self.assertIn("CODIMENSION", found.get("C").attributes)


class Sharing(unittest.TestCase):
    def shared(self, found: Symbols, *names: str) -> bool:
        groups = {found.get(name).group for name in names}
        return len(groups) == 1 and "" not in groups

    def test_equivalence(self) -> None:
        found = symbols(procedure("S", equivalence("A", "B"), equivalence("B", "C"), equivalence("D", "E")))
        self.assertTrue(self.shared(found, "A", "B", "C"))
        self.assertTrue(self.shared(found, "D", "E"))
        self.assertFalse(self.shared(found, "A", "D"))
        self.assertEqual(found.get("X").group, "")

    def test_equivalence_with_elements(self) -> None:
        statement = tree.Equivalence(((reference("A", 3), reference("B", 1)),))
        found = symbols(procedure("S", declare("REAL", array("A", 9), array("B", 2)), ("A B", statement)))
        self.assertTrue(self.shared(found, "A", "B"))

    def test_a_common_block_with_an_equivalence_overlaps_as_a_whole(self) -> None:
        # A(2) is Y.
        found = symbols(procedure(
            "S", common("C", "X", "Y"), declare("REAL", array("A", 2)), equivalence("X", "A"), common("D", "Z")
        ))
        self.assertTrue(self.shared(found, "A", "Y"))
        self.assertEqual((found.get("A").storage, found.get("A").block), (Storage.COMMON, ""))
        self.assertTrue(found.is_live_at_end("A"))
        self.assertEqual(found.get("Z").group, "")

    def test_common_alone_shares_nothing(self) -> None:
        found = symbols(procedure("S", common("C", "X", "Y")))
        self.assertEqual((found.get("X").group, found.get("Y").group), ("", ""))

    def test_a_block_of_the_host_and_of_the_unit(self) -> None:
        inner = procedure("T", common("C", "Y"))
        scopes = Scopes([module("M", common("C", "X"), contained=[inner])])
        self.assertTrue(self.shared(scopes.of(inner), "X", "Y"))

    def test_a_block_of_a_module_and_of_the_unit(self) -> None:
        found = symbols(procedure("S", use("M"), common("C", "Y")), module("M", common("C", "X")))
        self.assertTrue(self.shared(found, "X", "Y"))

    def test_two_names_of_one_variable_of_a_module(self) -> None:
        made = module("M", declare("REAL", "X", "Y"))
        found = symbols(procedure("S", use("M", "A=X"), use("M", "B=X"), use("M", "Y")), made)
        self.assertTrue(self.shared(found, "A", "B"))
        self.assertEqual(found.get("Y").group, "")


class Hosts(unittest.TestCase):
    def test_what_a_contained_procedure_sees(self) -> None:
        inner = procedure("T", declare("REAL", "OWN"), body=["X = K + LATER + OWN"])
        host = procedure(
            "S", declare(DOUBLE, array("X", 5)), attribute("VOLATILE", "OWN"), body=["K = 1"], arguments=["D"],
            contained=[inner],
        )
        found = Scopes([host]).of(inner)
        self.assertEqual((found.get("X").storage, found.get("X").kind), (Storage.HOST, 8))
        self.assertEqual(found.get("X").extents, ((1, 5),))
        self.assertIs(found.get("D").storage, Storage.HOST)
        # K is used in the host without a declaration, so it is the host's; LATER isn't used there.
        self.assertIs(found.get("K").storage, Storage.HOST)
        self.assertIs(found.get("LATER").storage, Storage.LOCAL)
        self.assertEqual((found.get("OWN").storage, found.get("OWN").attributes), (Storage.LOCAL, frozenset()))

    def test_what_contained_procedures_reach(self) -> None:
        inner = procedure("T", declare("REAL", "Y"), body=["X = K + Y"])
        found = symbols(procedure("S", declare("REAL", "X", "Y", "Z"), body=["K = 1"], contained=[inner]))
        self.assertEqual([found.get(name).is_reached_by_calls for name in "XKYZ"], [True, True, False, False])

    def test_an_array_of_the_host_is_no_statement_function(self) -> None:
        inner = procedure("T", body=[("A I", tree.Assignment(reference("A", "I"), expression(1)))])
        scopes = Scopes([procedure("S", declare("REAL", array("A", 9)), contained=[inner])])
        self.assertEqual(dict(scopes.of(inner).statement_functions), {})
        self.assertEqual(scopes.of(inner).get("A").rank, 1)

    def test_modules(self) -> None:
        inner = procedure("T", use("LIST"), body=["X = 1"])
        scopes = Scopes([module("M", declare("REAL", "X"), contained=[inner]), module("LIST", declare("REAL", "L"))])
        self.assertIs(scopes.of(inner).get("X").storage, Storage.MODULE)
        self.assertIs(scopes.of(inner).get("L").storage, Storage.MODULE)
        self.assertTrue(scopes.of(inner).uses_modules)
        self.assertIs(scopes.of(inner).get("T").storage, Storage.PROCEDURE)
        self.assertTrue(scopes.of(inner).is_live_at_end("X"))

    def test_faults_of_a_host_are_those_of_its_procedures(self) -> None:
        inner = procedure("T")
        scopes = Scopes([module("M", tree.Include("missing.inc"), contained=[inner])])
        self.assertEqual([fault.reason for fault in scopes.of(inner).faults], ["include"])


class Uses(unittest.TestCase):
    def test_only_and_rename(self) -> None:
        made = module("M", declare(DOUBLE, "X", "Y"), parameter("N", expression(7)))
        found = symbols(procedure("S", use("M", "A=X", "N")), made)
        found_a = found.get("A")
        self.assertEqual((found_a.storage, found_a.name, found_a.original, found_a.kind), (Storage.MODULE, "A", "X", 8))
        self.assertTrue(found.uses_modules)
        self.assertEqual((found.get("Y").storage, found.get("X").storage), (Storage.LOCAL, Storage.LOCAL))
        self.assertEqual(found.value("N"), Integer(7, 4))

    def test_rename_without_only(self) -> None:
        found = symbols(procedure("S", use("M", "A=X", only=False)), module("M", declare(DOUBLE, "X", "Y")))
        self.assertEqual([found.get(name).storage for name in "AYX"], [Storage.MODULE, Storage.MODULE, Storage.LOCAL])

    def test_a_renamed_constant_keeps_its_value(self) -> None:
        found = symbols(procedure("S", use("M", "K=N")), module("M", parameter("L", expression(2)),
                                                                 parameter("N", operation("*", "L", 3))))
        self.assertEqual(found.value("K"), Integer(6, 4))
        self.assertIsNone(found.value("L"))

    def test_private_names(self) -> None:
        made = module("M", attribute("PRIVATE"), attribute("PUBLIC", "X"), declare(DOUBLE, "X", "Y"))
        found = symbols(procedure("S", use("M")), made)
        self.assertEqual((found.get("X").storage, found.get("Y").storage), (Storage.MODULE, Storage.LOCAL))

    def test_modules_that_use_modules(self) -> None:
        inner = module("INNER", declare(DOUBLE, "X"))
        found = symbols(procedure("S", use("OUTER")), module("OUTER", use("INNER")), inner)
        self.assertEqual((found.get("X").storage, found.get("X").kind), (Storage.MODULE, 8))
        circle = symbols(procedure("S", use("A")), module("A", use("B")), module("B", use("A"), declare(DOUBLE, "X")))
        self.assertIs(circle.get("X").storage, Storage.MODULE)
        self.assertIs(circle.get("Y").storage, Storage.LOCAL)

    def test_a_module_that_is_missing(self) -> None:
        found = symbols(procedure("S", use("LIB"), declare("REAL", "OWN"), arguments=["D"]))
        self.assertIs(found.get("X").storage, Storage.UNKNOWN)
        self.assertEqual((found.get("OWN").storage, found.get("D").storage), (Storage.LOCAL, Storage.DUMMY))
        self.assertEqual(found.missing_modules, ("LIB",))
        self.assertTrue(found.is_intrinsic("SQRT"))
        listed = symbols(procedure("S", use("LIB", "SQRT", "X")))
        self.assertEqual((listed.get("X").storage, listed.get("Y").storage), (Storage.UNKNOWN, Storage.LOCAL))
        self.assertFalse(listed.is_intrinsic("SQRT"))

    def test_a_module_that_uses_a_missing_one(self) -> None:
        found = symbols(procedure("S", use("M")), module("M", use("LIB"), declare("REAL", "X")))
        self.assertEqual((found.get("X").storage, found.get("Y").storage), (Storage.MODULE, Storage.UNKNOWN))
        self.assertEqual(found.missing_modules, ("M",))

    def test_a_module_with_an_unreadable_declaration(self) -> None:
        found = symbols(procedure("S", use("M")), module("M", tree.Unreadable("MACRO(X)", "no form")))
        self.assertIs(found.get("X").storage, Storage.UNKNOWN)

    def test_two_modules_of_one_name(self) -> None:
        found = symbols(procedure("S", use("M")), module("M", declare("REAL", "X")), module("M"))
        self.assertIs(found.get("X").storage, Storage.UNKNOWN)

    def test_a_name_that_a_module_lacks(self) -> None:
        self.assertIs(symbols(procedure("S", use("M", "X")), module("M")).get("X").storage, Storage.UNKNOWN)

    def test_submodules(self) -> None:
        body = unit(tree.Head("SUBROUTINE", "P", ("A",)), declare(DOUBLE, array("A", 4)))
        shape = units.InterfaceBlock(written(tree.Interface()), (body,), (), None)
        parent = unit(tree.Head("MODULE", "M"), declare(DOUBLE, "X"), shape)
        body.host = parent
        inner = unit(tree.Head("PROCEDURE", "P"))
        made = unit(tree.Head("SUBMODULE", "SUB", parent="M"), contained=[inner])
        found = Scopes([parent, made]).of(inner)
        self.assertEqual((found.get("A").storage, found.get("A").extents), (Storage.DUMMY, ((1, 4),)))
        self.assertIs(found.get("X").storage, Storage.MODULE)
        self.assertEqual(found.faults, ())
        alone = Scopes([made]).of(inner)
        self.assertEqual([fault.reason for fault in alone.faults], ["use"])
        self.assertIs(alone.get("X").storage, Storage.UNKNOWN)


class Functions(unittest.TestCase):
    def found(self, *specification: Said, body: Sequence[Said]) -> Symbols:
        return symbols(procedure("S", *specification, body=body))

    def assigned(self, name: str, *arguments: object) -> Said:
        target = reference(name, *arguments)  # type: ignore[arg-type]
        return f"{name}({arguments}) = X", tree.Assignment(target, operation("+", "X", "B"))

    def test_statement_functions(self) -> None:
        found = self.found(
            declare("REAL", "F"),
            body=[self.assigned("F", "X"), ("FORMAT (I5)", tree.Format()), self.assigned("G", "X", "Y"),
                                        "X = 1", self.assigned("H", "X")],
        )
        self.assertEqual(list(found.statement_functions), ["F", "G"])
        self.assertEqual(found.statement_functions["G"].arguments, ("X", "Y"))
        self.assertEqual(str(found.statement_functions["F"].value), "X+B")
        self.assertIs(found.get("F").storage, Storage.PROCEDURE)
        self.assertEqual((found.is_intrinsic("G"), found.is_intrinsic("H")), (False, True))

    def test_arrays_are_assigned(self) -> None:
        self.assertFalse(self.found(declare("REAL", array("A", 9)), body=[self.assigned("A", "I")]).statement_functions)
        self.assertFalse(self.found(body=[self.assigned("A", operation("+", "I", 1))]).statement_functions)
        section = tree.Section(expression("I"), expression("J"))
        self.assertFalse(self.found(declare("CHARACTER", "C"), body=[self.assigned("C", section)]).statement_functions)

    def test_a_missing_module_may_have_the_array(self) -> None:
        found = self.found(use("LIB"), body=[self.assigned("A", "I")])
        self.assertFalse(found.statement_functions)
        self.assertIs(found.get("A").storage, Storage.UNKNOWN)

    def test_intrinsic_functions(self) -> None:
        found = symbols(procedure(
            "S", declare("REAL", "SIN", array("INDEX", 9)), attribute("EXTERNAL", "MAX"), attribute("INTRINSIC", "COS"),
            attribute("SAVE"), arguments=["MIN"], contained=[procedure("MOD")],
        ))
        self.assertEqual([found.is_intrinsic(name) for name in ("SIN", "COS", "ABS")], [True] * 3)
        self.assertEqual([found.is_intrinsic(name) for name in ("INDEX", "MAX", "MIN", "MOD")], [False] * 4)

    def test_intrinsic_functions_of_contained_procedures(self) -> None:
        inner = procedure("T")
        host = procedure("S", declare("REAL", array("INDEX", 9)), attribute("EXTERNAL", "MAX"), body=["X = ABS(Y)"],
                         contained=[inner])
        found = Scopes([host]).of(inner)
        names = ("INDEX", "MAX", "ABS", "SIN")
        self.assertEqual([found.is_intrinsic(name) for name in names], [False, False, True, True])

    def test_a_function_of_the_files_with_the_name_of_an_intrinsic_one(self) -> None:
        own = unit(tree.Head("FUNCTION", "ERF", ("X",)))
        found = symbols(procedure("S", declare("REAL", "ERF")), own)
        self.assertEqual([found.is_intrinsic(name) for name in ("ERF", "SIN")], [False, True])
        self.assertFalse(symbols(procedure("S"), own).is_intrinsic("ERF"))
        self.assertTrue(symbols(procedure("S", attribute("INTRINSIC", "ERF")), own).is_intrinsic("ERF"))

    def test_generic_names_and_interfaces(self) -> None:
        body = unit(tree.Head("FUNCTION", "ABS", ("X",)))
        interface = units.InterfaceBlock(written(tree.Interface("MAX")), (body,), (), None)
        found = symbols(unit(tree.Head("SUBROUTINE", "S"), interface))
        self.assertFalse(found.is_intrinsic("MAX") or found.is_intrinsic("ABS"))


class DerivedTypes(unittest.TestCase):
    def point(self, *components: Said, name: str = "POINT", extends: str = "") -> units.TypeDefinition:
        head = written(tree.DerivedType(name, extends=extends))
        return units.TypeDefinition(head, tuple(written(one) for one in components), (), written(tree.End("TYPE")))

    def test_components(self) -> None:
        made = unit(
            tree.Head("MODULE", "M"), self.point(declare(DOUBLE, "X", array("V", 3)), declare("REAL", "P",
            attributes=["POINTER"])),
            self.point(declare(INTEGER8, "N"), name="MORE", extends="POINT"),
        )
        user = procedure("S", use("M", "T=MORE", "POINT"), declare(tree.TypeSpec("TYPE", derived="T"), array("A", 5)))
        found = symbols(user, made)
        self.assertIs(found.get("POINT").storage, Storage.TYPE)
        components = found.components(found.get("A"))
        assert components is not None
        self.assertTrue(components.is_complete)
        self.assertEqual(sorted(components.components), ["N", "P", "POINT", "V", "X"])
        vector, pointer, number = (components.component(name) for name in ("V", "P", "N"))
        assert vector is not None and pointer is not None and number is not None
        self.assertEqual((vector.kind, vector.extents, number.kind), (8, ((1, 3),), 8))
        self.assertTrue(pointer.is_pointer)
        self.assertIsNone(components.component("METHOD"))

    def test_types_that_are_not_known(self) -> None:
        found = symbols(procedure("S", use("LIB"), declare(tree.TypeSpec("TYPE", derived="T"), "A")))
        self.assertIsNone(found.components(found.get("A")))
        made = unit(tree.Head("MODULE", "M"), self.point(tree.Unreadable("MACRO", "no form")),
                    self.point(name="A", extends="B"), self.point(name="B", extends="A"))
        scopes = Scopes([made]).of(made)
        for name in ("POINT", "A"):
            components = scopes.derived_type(name)
            assert components is not None
            self.assertFalse(components.is_complete)


class Faults(unittest.TestCase):
    def reasons(self, *specification: Said, body: Sequence[Said] = ()) -> Sequence[str]:
        return [fault.reason for fault in symbols(procedure("S", *specification, body=body)).faults]

    def test_faults(self) -> None:
        self.assertEqual(self.reasons(declare("REAL", "A")), [])
        self.assertEqual(self.reasons(tree.Include("sizes.inc")), ["include"])
        self.assertEqual(self.reasons(tree.Unreadable("REAL :: :: X", "no form")), ["parse"])
        self.assertEqual(self.reasons(tree.Unreadable("REAL A[*]", "other images", "coarray")), ["coarray"])

    def test_late_declarations_count(self) -> None:
        self.assertEqual(self.reasons(body=["X = 1", ("REAL ((", tree.Unreadable("REAL ((", "no form"))]), ["parse"])
        self.assertEqual(self.reasons(body=["X = 1", ("CALL ((", tree.Unreadable("CALL ((", "no form"))]), [])
        self.assertEqual(self.reasons(body=["X = 1", ("INCLUDE 'A'", tree.Include("A"))]), ["include"])
        found = symbols(procedure("S", body=["X = 1", ("DATA T/1/", tree.Data(("T",)))]))
        self.assertIn("SAVE", found.get("T").attributes)

    def test_a_block_has_names_of_its_own(self) -> None:
        inner = written("N = 5")
        late: Said = ("INTEGER N(5)", tree.TypeDeclaration(INTEGER8, frozenset(), (array("N", 5),)))
        made = procedure("S", body=[block("BLOCK", tree.Construct("BLOCK"), late)])
        first = made.body[0]
        assert isinstance(first, units.Block)
        found = symbols(made)
        self.assertEqual((found.get("N").kind, found.get("N").rank), (4, 0))
        held = next(statement for statement in first.statements() if statement is not first.head)
        self.assertIs(found.block_round(held), first)
        self.assertIsNone(found.block_round(inner))


class Associations(unittest.TestCase):
    def round(self, head: tree.Statement, kind: str) -> Optional[units.Block]:
        loop = block("DO", tree.Do(None, None), "X(I) = 1")
        outer = block(kind, head, loop)
        found = symbols(procedure("S", body=[outer]))
        return found.block_round(loop.head)

    def test_names_that_stand_for_something_else(self) -> None:
        self.assertIsNotNone(self.round(tree.Construct("ASSOCIATE", (("X", expression("Y")),)), "ASSOCIATE"))
        self.assertIsNotNone(self.round(tree.SelectType("X", expression("Y")), "SELECT"))
        self.assertIsNone(self.round(tree.SelectCase(expression("Y")), "SELECT"))
        self.assertIsNone(self.round(tree.IfThen(expression("Y")), "IF"))


if __name__ == "__main__":
    unittest.main()
